"""nginx in front of the seats, by the file that the documents have."""
import contextlib
import os
import shutil
import subprocess

from served import HERE, wait_until

NGINX = shutil.which("nginx") or ("/usr/sbin/nginx" if os.path.exists("/usr/sbin/nginx") else None)
OPENSSL = shutil.which("openssl")
NO_NGINX = "nginx or openssl is not installed, so no proxy stood in front"
MAIN = """
daemon off;
pid {room}/nginx.pid;
error_log {room}/error.log;
worker_rlimit_nofile 8192;
events {{ worker_connections 4096; }}
http {{
    access_log {room}/access.log;
    client_body_temp_path {room}/body;
    proxy_temp_path {room}/proxy;
    fastcgi_temp_path {room}/fastcgi;
    uwsgi_temp_path {room}/uwsgi;
    scgi_temp_path {room}/scgi;
    include {room}/seats.conf;
}}
"""


# how a login may end: each while a file of its name is there
ENDS = {
    "redirect": "return 302 https://login.example.org/;",
    "page": 'return 200 "<h1>Log in</h1>";',
    "word": "return 401;",
}


def has_nginx():
    return bool(NGINX and OPENSSL)


class Proxy:
    """nginx with the documents' file, in which names, paths and the port are those of a test."""

    def __init__(self, room, port, socket, passwords):
        self.room, self.port = room, port
        self.make_certificate()
        with open(os.path.join(room, "planners"), "w") as file:
            for name, word in passwords.items():
                made = subprocess.run(
                    [OPENSSL, "passwd", "-apr1", word], capture_output=True, text=True, check=True
                )
                file.write(f"{name}:{made.stdout}")
        with open(os.path.join(HERE, "docs/nginx.conf")) as file:
            self.text = file.read()
        for old, new in [
            ("listen 443 ssl http2;", f"listen 127.0.0.1:{port} ssl http2;"),
            ("server_name desk.example.org;", "server_name localhost;"),
            ("/srv/timetabling/today/web.socket;", f"{socket};"),
            ("/etc/ssl/desk.example.org.pem", f"{room}/cert.pem"),
            ("/etc/ssl/desk.example.org.key", f"{room}/cert.key"),
            ("/etc/nginx/planners", f"{room}/planners"),
        ]:
            if old not in self.text:
                raise ValueError(f"docs/nginx.conf has no {old}")
            self.text = self.text.replace(old, new)
        ends = "".join(f"if (-f {room}/ends-{how}) {{ {act} }}\n" for how, act in ENDS.items())
        inside = f"location /seats/ {{\ndefault_type text/html;\n{ends}"
        self.text = self.text.replace("location /seats/ {", inside)
        self.write(self.text)
        with open(os.path.join(room, "nginx.conf"), "w") as file:
            file.write(MAIN.format(room=room))
        words = [
            NGINX,
            "-p",
            room,
            "-c",
            os.path.join(room, "nginx.conf"),
            "-e",
            f"{room}/error.log",
        ]
        # run by root it would serve as another user, who may not reach the folder of a test
        words += ["-g", "user root;"] if os.getuid() == 0 else []
        self.process = subprocess.Popen(words, stderr=subprocess.PIPE)
        if not wait_until(lambda: os.path.exists(os.path.join(room, "nginx.pid"))):
            raise OSError("nginx does not begin")

    def make_certificate(self):
        subprocess.run(
            [OPENSSL, "req", "-x509", "-newkey", "rsa:2048", "-nodes", "-days", "2"]
            + ["-subj", "/CN=localhost", "-keyout", f"{self.room}/cert.key"]
            + ["-out", f"{self.room}/cert.pem"],
            check=True,
            capture_output=True,
        )

    def write(self, text):
        with open(os.path.join(self.room, "seats.conf"), "w") as file:
            file.write(text)

    def expire(self, how):
        """The login of the house ends: `redirect` leads to its page, `page` shows it, `word` asks
        for the password."""
        self.renew()
        with open(os.path.join(self.room, f"ends-{how}"), "w"):
            pass

    def renew(self):
        for how in ENDS:
            with contextlib.suppress(FileNotFoundError):
                os.remove(os.path.join(self.room, f"ends-{how}"))

    def log(self):
        with open(os.path.join(self.room, "access.log")) as file:
            return file.read()

    def end(self):
        self.process.terminate()
        self.process.wait(60)
        self.process.stderr.close()
