# A Debian package of what `install` has laid out: read by it. It needs `stop`, $laid, $scratch.

# Fills in the paths of the units of systemd, and lays them out below a folder.
lay_out_units() {
    local unit
    mkdir -p -- "$1" || return
    for unit in "$here"/tools/systemd/*.service; do
        sed "s:@bin@:$2:g" "$unit" >"$1/${unit##*/}" || return
    done
    chmod 644 "$1"/*.service
}

# Says which version a package has: that of the program, and of the commit if there is one.
package_version() {
    local version commit
    version=$("$program" --version) && version=${version##* } || return
    commit=$(git -C "$here" show -s --format=%cd.%h --date=format:%Y%m%d HEAD 2>/dev/null)
    echo "$version${commit:++git$commit}"
}

# Writes the changelog of a package of version $1: the project's own is its history of commits.
changelog() {
    local date
    date=$(git -C "$here" show -s --format=%cD HEAD 2>/dev/null) || date=$(date -R)
    printf 'timedesk (%s) unstable; urgency=medium\n\n' "$1"
    printf '  * As the commits of the project say.\n\n'
    printf ' -- Vilaktin maintainers <maintainers@users.noreply.vilaktin.example>  %s\n' "$date"
}

# Makes the package $1.
make_package() {
    local tree=$scratch/package version architecture doc page
    version=$(package_version) && architecture=$(dpkg --print-architecture) || return
    mkdir -p "$tree/DEBIAN" && cp -dR -- "$laid" "$tree/usr" || return
    doc=$tree/usr/share/doc/timedesk
    ! command -v strip >/dev/null ||
        strip --strip-unneeded "$tree/usr/lib/timedesk/ctt_tool" || return
    rm -f -- "$tree/usr/lib/timedesk/uninstall"
    lay_out_units "$tree/lib/systemd/system" /usr/bin || return
    cp -- "$here/tools/debian/copyright" "$doc" || return
    changelog "$version" | gzip -9n >"$doc/changelog.gz" || return
    gzip -9n "$tree"/usr/share/man/man1/timedesk.1 || return
    rm -f -- "$tree/usr/share/man/man1/office.1"
    ln -s timedesk.1.gz "$tree/usr/share/man/man1/office.1.gz" || return
    sed "s/@version@/$version/; s/@architecture@/$architecture/" "$here/tools/debian/control" \
        >"$tree/DEBIAN/control" || return
    cp -- "$here/tools/debian/postinst" "$tree/DEBIAN" || return
    find "$tree" -type d -exec chmod 755 {} + || return
    find "$tree/usr/share" -type f -exec chmod 644 {} + || return
    chmod 755 "$tree/DEBIAN/postinst" || return
    dpkg-deb --root-owner-group --build "$tree" "$1" >/dev/null
}
