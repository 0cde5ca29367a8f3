"""Debian packages and a tar archive of folders, the same bytes for the same files."""
import gzip
import hashlib
import io
import os
import re
import tarfile

from package_parts.contents import MAINTAINER, end, said, write

# Which package has a library that programs need.
LIBRARIES = {"libc.so.6": "libc6", "libm.so.6": "libc6", "ld-linux-x86-64.so.2": "libc6", "libgcc_s.so.1": "libgcc-s1"}
# What each package says of itself; {needed} are the libraries of the programs.
PACKAGES = {
    "hozterqui": (
        "amd64",
        ["Depends: {needed}", "Suggests: hozterqui-clients (= {version})"],
        "modelled board controller, and a manager with undo",
        """A lab for those who build managers of servers: a baseboard management
 controller to test a manager against, over IPMB and MCTP, and a manager that
 changes a machine's configuration by plans and takes the change back.
 .
 hozterqui --version says which of the programs were proved, and by what.""",
    ),
    "hozterqui-clients": (
        "all",
        ["Depends: python3 (>= 3.11), python3-pyghmi", "Suggests: hozterqui (= {version}), ipmitool"],
        "bridges between hozterqui and IPMI over LAN",
        """lan-bridge lets clients of IPMI over LAN, as ipmitool, reach the controller
 that bmcnet serves. controller-bridge lets bmcnet run a plan on another
 maker's controller, through a command as ipmitool. lossy-link fails by a
 seed between two ports. More tools make a board of a short list, write
 captures for Wireshark, and draw a play as a picture; served_board.py serves
 a board in a test of Python.""",
    ),
}


def libraries_of(paths):
    """Returns the packages that these programs depend on, with the least version of libc."""
    needed, least = set(), (2, 2)
    for path in paths:
        for name in re.findall(r"\(NEEDED\).*\[(.*)\]", said(["readelf", "-d", path])):
            needed.add(LIBRARIES.get(name) or end(f"{path} needs {name}, of which no package is known"))
        least = max([least, *(tuple(map(int, it)) for it in re.findall(r"GLIBC_(\d+)\.(\d+)", said(["readelf", "-V", path])))])
    return [f"libc6 (>= {least[0]}.{least[1]})" if name == "libc6" else name for name in sorted(needed)]


def paths_in(root):
    """Yields the folders and files below a root, in order."""
    for at, folders, names in os.walk(root):
        folders.sort()
        yield from (os.path.join(at, name) for name in folders)
        yield from (os.path.join(at, name) for name in sorted(names))


def settle(root, epoch):
    """Gives all below a root one date, and each folder one mode."""
    for path in [root, *paths_in(root)]:
        if os.path.isdir(path) and not os.path.islink(path):
            os.chmod(path, 0o755)
        elif not os.path.islink(path) and not os.access(path, os.X_OK):
            os.chmod(path, 0o644)
        os.utime(path, (epoch, epoch), follow_symlinks=False)


def build(package, root, out, version, epoch, needed):
    """Makes a package of what stands in a root, and returns its path."""
    architecture, fields, short, long = PACKAGES[package]
    files = [path for path in paths_in(root) if os.path.isfile(path) and not os.path.islink(path)]
    sums = []
    for path in files:
        with open(path, "rb") as file:
            sums.append(f"{hashlib.md5(file.read()).hexdigest()}  {os.path.relpath(path, root)}\n")
    size = sum((os.path.getsize(path) + 1023) // 1024 for path in files) + sum(1 for path in paths_in(root) if path not in files)
    head = [f"Package: {package}", f"Version: {version}", f"Architecture: {architecture}", f"Maintainer: {MAINTAINER}", f"Installed-Size: {size}"]
    head += [line.format(needed=", ".join(needed), version=version) for line in fields]
    head += ["Section: net", "Priority: optional", f"Description: {short}", f" {long}"]
    write(f"{root}/DEBIAN/control", "\n".join(head) + "\n")
    write(f"{root}/DEBIAN/md5sums", "".join(sums))
    settle(root, epoch)
    path = f"{out}/{package}_{version}_{architecture}.deb"
    os.environ["SOURCE_DATE_EPOCH"] = str(epoch)
    said(["dpkg-deb", "--root-owner-group", "--threads-max=1", "-Zxz", "-z2", "--build", root, os.path.abspath(path)])
    return path


def archive(roots, out, version, epoch):
    """Makes an archive of both packages in one folder, and returns its path."""
    folder, made = f"hozterqui-{version}", {}
    for root in roots.values():
        for path in paths_in(root):
            name = os.path.relpath(path, root)
            if name.split("/")[0] != "DEBIAN":
                made[re.sub(r"^usr/", "", name)] = path
    path = f"{out}/hozterqui_{version}_amd64.tar.gz"
    plain = io.BytesIO()
    with tarfile.open(fileobj=plain, mode="w", format=tarfile.GNU_FORMAT) as tar:
        for name in sorted(made):
            if name == "usr":
                continue
            member = tar.gettarinfo(made[name], f"{folder}/{name}")
            member.uid = member.gid = 0
            member.uname = member.gname = "root"
            member.mtime = epoch
            if member.isreg():
                with open(made[name], "rb") as file:
                    tar.addfile(member, file)
            else:
                tar.addfile(member)
    with open(path, "wb") as file:
        file.write(gzip.compress(plain.getvalue(), 6, mtime=0))
    return path
