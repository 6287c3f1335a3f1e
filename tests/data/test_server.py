"""What IT does: units of systemd, a Debian package, nginx for the published site, a copy of an open
day that is opened elsewhere."""
import base64
import os
import re
import shutil
import subprocess
import unittest
import urllib.error
import urllib.request

import test_install
from support import HERE, PATIENCE, SMALL, SMALL_SOL, OfficeTest, wait_until
from test_publish import Publishing

NGINX = shutil.which("nginx") or shutil.which("nginx", path="/usr/sbin")
UNITS = ["office-publish@.service", "office-web@.service", "office@.service"]


def lacks(program):
    return unittest.skipUnless(shutil.which(program), f"{program} is not installed")


class Units(test_install.Install):
    @lacks("systemd-analyze")
    def test_systemd_takes_them(self):
        self.build()
        prefix = self.path("prefix")
        told = self.run_in("./install", "--prefix", prefix, "--systemd")
        self.assertIn(f"units of systemd are in {prefix}/lib/systemd/system", told)
        folder = f"{prefix}/lib/systemd/system"
        self.assertEqual(sorted(os.listdir(folder)), UNITS)
        os.mkdir(self.path("units"))
        names = []
        for unit in UNITS:
            with open(f"{folder}/{unit}") as file:
                text = file.read()
            self.assertIn(f"{prefix}/bin/office", text)
            names.append(self.write(f"units/{unit.replace('@', '@math')}", text))
        words = ["systemd-analyze", "verify", "--man=no", *names]
        done = subprocess.run(words, capture_output=True, text=True)
        self.assertEqual((done.returncode, done.stderr), (0, ""))
        self.run_in("./uninstall", "--prefix", prefix)
        self.assertFalse(os.path.exists(folder))

    def test_a_day_is_opened_and_gone_on_with(self):
        """The shell's line of the unit, as systemd gives it to it."""
        with open(os.path.join(HERE, "tools/systemd/office@.service")) as file:
            line = re.search("^ExecStart=/bin/sh -c '(.*)'$", file.read(), re.MULTILINE)[1]
        self.write("office", '#!/bin/sh\necho "$@"\n', 0o755)
        script = line.replace("@bin@", self.room).replace("$$", "$")
        environment = {"DAY": "monday", "FIRST": "plan 4"}
        for wanted in "open monday plan 4\n", "open monday\n":
            done = subprocess.run(
                ["sh", "-c", script], cwd=self.room, env=environment, capture_output=True, text=True
            )
            self.assertEqual(done.stdout, wanted)
            os.makedirs(self.path("monday"), exist_ok=True)
            self.write("monday/day.json", "")


class Package(test_install.Install):
    @lacks("dpkg-deb")
    def test_it_is_made_installed_and_removed(self):
        self.build()
        deb, root = self.path("timedesk.deb"), self.path("root")
        self.run_in("./install", "--deb", deb)
        if shutil.which("lintian"):
            done = subprocess.run(
                ["lintian", "--allow-root", "--fail-on", "error", "--tag-display-limit", "0", deb],
                capture_output=True,
                text=True,
            )
            self.assertEqual(done.returncode, 0, done.stdout)
        os.makedirs(f"{root}/var/lib/dpkg/updates")
        for name in "status", "available":
            self.write(f"root/var/lib/dpkg/{name}", "")
        os.makedirs(f"{root}/var/lib/dpkg/info")
        options = [f"--root={root}", "--force-depends", "--force-script-chrootless"]
        options += ["--force-not-root", "--log=/dev/null"]
        self.run_in("dpkg", *options, "--install", deb)
        units = os.listdir(f"{root}/lib/systemd/system")
        self.assertEqual(sorted(units), UNITS)
        found = self.run_in(f"{root}/usr/bin/timedesk", "check", SMALL, SMALL_SOL)
        self.assertTrue(found.startswith("instance Small\n"))
        self.assertIn("publish", self.run_in(f"{root}/usr/bin/office", "--help"))
        self.run_in("dpkg", *options, "--purge", "timedesk")
        self.assertFalse(os.path.exists(f"{root}/usr/lib/timedesk"))


class Site(Publishing):
    @unittest.skipUnless(NGINX, "nginx is not installed: no site was served by it")
    def test_nginx_serves_it(self):
        self.labelled()
        os.makedirs(self.path("srv/math"))
        os.umask(0o077)
        self.addCleanup(os.umask, 0o022)
        self.publish(to="srv/math/site")
        with open(os.path.join(HERE, "docs/nginx-site.conf")) as file:
            text = file.read()
        text = re.sub(r"listen .*;", "listen 127.0.0.1:18439;", text)
        text = re.sub(r" *ssl_certificate.*;\n", "", text)
        text = text.replace("/srv/timetabling/", self.path("srv/")).replace(
            "/etc/nginx/planners", self.write("planners", "anna:{PLAIN}secret\n")
        )
        whole = "daemon off;\npid {0}/pid;\nerror_log {0}/error;\nevents {{}}\nhttp {{\n"
        whole += "access_log off;\nclient_body_temp_path {0}/b;\nproxy_temp_path {0}/p;\n"
        whole += "fastcgi_temp_path {0}/f;\nuwsgi_temp_path {0}/u;\nscgi_temp_path {0}/s;\n"
        conf = self.write("nginx.conf", whole.format(self.room) + text + "}\n")
        for name in self.room, self.path("srv"), self.path("srv/math"):
            os.chmod(name, 0o755)
        for name in "planners", "nginx.conf":
            os.chmod(self.path(name), 0o644)
        server = subprocess.Popen([NGINX, "-c", conf, "-p", self.room], stderr=subprocess.PIPE)
        self.addCleanup(server.stderr.close)
        self.addCleanup(server.wait)
        self.addCleanup(server.terminate)

        def get(path, login=None):
            request = urllib.request.Request(f"http://127.0.0.1:18439{path}")
            if login:
                code = base64.b64encode(login.encode()).decode()
                request.add_header("Authorization", f"Basic {code}")
            try:
                with urllib.request.urlopen(request, timeout=PATIENCE) as answer:
                    return answer.status, answer.headers
            except urllib.error.HTTPError as fault:
                with fault:
                    return fault.code, fault.headers
            except urllib.error.URLError:
                return 0, {}

        self.assertTrue(wait_until(lambda: get("/weeks/math/")[0] == 200))
        status, headers = get("/weeks/math/course/geo.ics")
        self.assertEqual((status, headers["Content-Type"]), (200, "text/calendar; charset=utf-8"))
        self.assertIn("max-age=", headers["Strict-Transport-Security"])
        self.assertEqual(get("/weeks/math/nothing.html")[0], 404)
        self.assertEqual(get("/weeks/other/index.html")[0], 404)
        self.assertEqual(get("/seats/math/")[0], 401)
        self.assertEqual(get("/seats/math/", "anna:wrong")[0], 401)
        # the office is away, but who has logged in gets as far as it
        self.assertEqual(get("/seats/math/", "anna:secret")[0], 502)


class Restored(OfficeTest):
    def test_a_copy_of_an_open_day(self):
        self.open("day", SMALL, "1", "--start", SMALL_SOL)
        self.sit("day", 0, "open\nmove geo 1 2 A 1 1\ncommit\n")
        os.mkdir(self.path("other"))
        pack = ["tar", "-C", self.room, "-cf", self.path("backup.tar"), "day"]
        subprocess.run(pack, check=True)
        # what comes after the copy is not in it
        self.sit("day", 0, "open\ndrop top 0 2\ncommit\n")
        unpack = ["tar", "-C", self.path("other"), "-xf", self.path("backup.tar")]
        subprocess.run(unpack, check=True)
        restored = self.start("open", self.path("other/day"))
        # it goes on in a part of its own
        self.assertIn("0 lectures set aside", restored.stderr.readline())
        self.assertIn("open, seats 0 to 0", restored.stderr.readline())
        log = self.office("log", self.path("other/day"))[1]
        self.assertIn("geo", log)
        self.assertNotIn("top", log)
        answers = self.sit("other/day", 0, "open\ndrop alg 0 0\ncommit\n")
        self.assertTrue(answers[-1].startswith("committed"), answers)
        self.office("close", self.path("other/day"), "--wait", "0")
        self.assertEqual(restored.wait(PATIENCE), 0)
        # the first one goes on as if nothing had been
        self.assertIn("top", self.office("log", self.path("day"))[1])


if __name__ == "__main__":
    unittest.main()
