"""Two rooms, which are network namespaces for the client and the server. Only the host program hinge-link connects the rooms,
through two tun interfaces.

Everything depends on the first process in a PID namespace. When this process ends, for example because `hinge run` was killed, the
kernel ends all processes in the rooms and removes the rooms. No root is needed if users may create namespaces. Linux only."""

from __future__ import annotations

import errno
import os
import shutil
import signal
from contextlib import suppress
from typing import Callable, Optional, Sequence

from hinge.border.files import read_front, read_system
from hinge.border.programs import become, forked
from hinge.border.scratch import held, temporary_place
from hinge.border.terminal import silence
from hinge.command import say
from hinge.run.cgroups import Cgroup
from hinge.run.interfaces import add_route, add_tun, dropped, set_up
from hinge.run.processes import Mask
from hinge.run.steps import at_root, kept_as_step
from hinge.run.system import BIND, NEWNET, NEWNS, NEWPID, NEWUSER, Missing, enter, keep_mounts_to_itself, keep_network_rights, mount
from hinge.run.system import setting, try_to_write, unmount, unshare, write
from hinge.run.two_hosts import Ends
from hinge.run.users import Users, make_terminals

PAUSES = "/proc/pauses"  # this file exists only in a simulated machine
ELF32 = b"\x7fELF\x01"  # the first bytes of a 32-bit program
ORDER_OF_ADDRESSES = "/etc/gai.conf"
# The C library's own order, which the library no longer applies once the file contains a line `precedence`.
DEFAULT_ORDER = """precedence ::1/128 50
precedence ::/0 40
precedence 2002::/16 30
precedence ::/96 20
precedence ::ffff:0:0/96 10
"""
OWN_LAST = "precedence fd08::/15 1\n"  # the rooms' IPv6 addresses come last


def is_chrooted() -> bool:
    """Returns whether this process is probably in a chroot, because no mount is at `/`: a chroot's root is seldom a file system's
    root."""
    try:
        return all(line.split()[4] != "/" for line in read_system("/proc/self/mountinfo").splitlines())
    except OSError:
        return False


INSTEAD = "or add --simulated, which needs neither namespaces nor /dev/net/tun"


def advice(number: Optional[int]) -> str:
    """Returns advice for a user to whom the system refuses namespaces; `number` is the error's number."""
    if number == errno.EPERM and is_chrooted():
        return "in a chroot the kernel gives them to root alone: run it as root"
    if setting("kernel/apparmor_restrict_unprivileged_userns") == "1":
        return "AppArmor keeps users from it: sudo sysctl kernel.apparmor_restrict_unprivileged_userns=0, or run it as root"
    if setting("kernel/unprivileged_userns_clone") == "0":
        return "users may not make them: sudo sysctl kernel.unprivileged_userns_clone=1, or run it as root"
    if setting("user/max_user_namespaces") == "0" or number == errno.ENOSPC:
        return "their number is limited: sudo sysctl user.max_user_namespaces=10000"
    return (
        "in a container, give it --device /dev/net/tun and --security-opt seccomp=unconfined --security-opt"
        " apparmor=unconfined, or --cap-add SYS_ADMIN --cap-add NET_ADMIN; elsewhere run it as root"
    )


def unshared() -> bool:
    """Moves this process into new namespaces of mounts, processes and networks; returns whether there is a new user namespace too.
    root keeps the system's users if the system permits."""
    flags = NEWNS | NEWPID | NEWNET
    if os.geteuid() == 0:
        with suppress(OSError):
            unshare(flags)
            return False
    unshare(flags | NEWUSER)
    return True


class System:
    """Holds whether this process has left the system's mounts (`is_left`). Before that, a run must not mount over a user's file."""

    is_left = False


def refuse_system() -> None:
    """Checks that this process has left the system's mounts. RuntimeError: a mount would change the user's system."""
    if not System.is_left:
        raise RuntimeError("this process has the system's own mounts")


def leave_the_system() -> bool:
    """Moves this process into new namespaces, and keeps later mounts there; returns whether there is a new user namespace. Missing:
    the system refuses namespaces, or has no /proc."""
    users = Users()
    try:
        own_users = unshared()
    except OSError as error:
        raise Missing(f"no namespaces ({error.strerror}): {advice(error.errno)}; {INSTEAD}") from None
    users.map(own_users)
    try:
        keep_mounts_to_itself()
    except OSError as error:
        raise Missing(
            f"{error.filename or 'mounts'}: {error.strerror}: in a chroot mount /proc there first: mount -t proc proc /proc"
        ) from None
    System.is_left = True
    return own_users


@kept_as_step
def this_network() -> int:
    """Returns a descriptor of the current network namespace."""
    return held("/proc/thread-self/ns/net")


@kept_as_step
def see_own_processes() -> None:
    """Makes /proc show only the processes in this namespace, if the system permits."""
    refuse_system()
    with suppress(OSError):  # a container that hides parts of /proc: the rooms see the container's processes
        mount("proc", "/proc", "proc", 0)


def may_ping() -> str:
    """Returns the first and the last group that may send pings, as a setting's text: both are this process's group."""
    return f"{os.getegid()} {os.getegid()}"


def furnish() -> int:
    """Makes the current network namespace a room, in which users may send pings and servers use low ports; returns its
    descriptor."""
    set_up("lo")
    try_to_write("/proc/sys/net/ipv4/ping_group_range", may_ping())
    try_to_write("/proc/sys/net/ipv4/ip_unprivileged_port_start", "0")
    return this_network()


@kept_as_step
def put_over(path: str, text: str) -> None:
    """Replaces a file's text in these namespaces only, by a mount. The text is on a temporary file system, so nothing remains after
    the run.

    The new file keeps a name on that file system, so that a nested run can replace the file again."""
    refuse_system()
    folder = temporary_place()
    product = os.path.join(folder, "made")
    mount("none", folder, "tmpfs", 0)
    try:
        write(product, text)
        os.chmod(product, 0o644)
        mount(product, path, "none", BIND)
    finally:
        unmount(folder)


def prefer_ipv4() -> bool:
    """Makes the C library return IPv4 addresses first, since some programs don't listen on IPv6. Returns whether the file with the
    order of addresses could be replaced."""
    try:
        rules = read_system(at_root(ORDER_OF_ADDRESSES)) + "\n"
        if not any(line.split()[:1] == ["precedence"] for line in rules.splitlines()):
            rules += DEFAULT_ORDER
        put_over(ORDER_OF_ADDRESSES, rules + OWN_LAST)
        return True
    except OSError:
        return False


def add_names(names: str, of_six: str, example: str, address: str) -> None:
    """Makes hosts known by name in these namespaces: adds the lines `names`, and if the C library prefers IPv4 the lines `of_six`
    with IPv6 addresses, to /etc/hosts. If that fails, prints advice with the host name `example` and its address."""
    if prefer_ipv4():
        names += of_six
    with suppress(OSError):  # there is no such file, or this user can't read it
        names += read_system(at_root("/etc/hosts"))
    try:
        put_over("/etc/hosts", names)
    except OSError as error:
        advice = "make an empty one, or take" if error.errno == errno.ENOENT else "take"
        say(f"/etc/hosts: {error.strerror}: the name `{example}` isn't known: {advice} {address}")


def why_not(name: str, error: OSError) -> str:
    """Returns the reason why a command can't be started, in words."""
    path = shutil.which(name)
    if error.errno == errno.ENOEXEC and path and os.path.exists(PAUSES):
        with suppress(OSError):
            if read_front(path, len(ELF32)) == ELF32:
                return "it is a 32-bit program, and the simulated machine runs 64-bit programs only"
    return str(error.strerror)


def start(words: Sequence[str], mask: Mask, enter_room: Callable[[], None], own_users: bool) -> int:
    """Starts a command in the room that `enter_room` enters; returns its process. The command blocks the signals in `mask` only. In
    a new user namespace (`own_users`), the command keeps the rights to use the network."""

    def enter_and_execute() -> int:
        enter_room()
        if own_users and os.geteuid() != 0:
            keep_network_rights()
        for number in (signal.SIGPIPE, signal.SIGXFSZ, signal.SIGINT):  # Python ignores the first two, and handles the third
            signal.signal(number, signal.SIG_DFL)
        signal.pthread_sigmask(signal.SIG_SETMASK, mask)
        try_to_write(PAUSES, "1")
        return become(words, lambda error: why_not(words[0], error))

    return forked(enter_and_execute)


class Rooms:
    """Holds the rooms of the client and the server. Create this object in the first process, which stays in the server's room."""

    def __init__(self, mtu: int, own_users: bool, ends: Ends) -> None:
        self.own_users = own_users
        self.ends = ends
        see_own_processes()
        self.client = furnish()  # in this process's network
        client_interface = add_tun(ends.client, ends.client6, mtu, bits=ends.bits)
        unshare(NEWNET)
        self.server = furnish()  # in the new network
        server_interface = add_tun(ends.server, ends.server6, mtu, bits=ends.bits)
        self.interfaces = (client_interface, server_interface)
        add_names(ends.names(), ends.names_of_six(), "server", ends.server)

    def lead_out(self, ipv6: bool) -> None:
        """Sends the client's packets for other networks to the server's room."""
        enter(self.client)
        add_route(self.ends.server)
        if ipv6:
            add_route(self.ends.server6)

    def dropped(self) -> list[int]:
        """Returns how many packets the system dropped before the link, for each way (one direction of the link)."""
        counts = []
        for room in (self.client, self.server):
            enter(room)
            counts.append(dropped())
        return counts

    def start(self, room: int, words: Sequence[str], mask: Mask, cgroup: Optional[Cgroup], is_behind: bool = False) -> int:
        """Starts a command in a room and a cgroup; returns its process. With `is_behind`, the command runs in the background: its
        process group can't read from the terminal."""

        def enter_room() -> None:
            if cgroup:
                cgroup.join()
            if is_behind:
                os.setpgid(0, 0)
                if os.isatty(0):
                    silence(0)
                if self.own_users:
                    make_terminals()
            enter(room)

        return start(words, mask, enter_room, self.own_users)
