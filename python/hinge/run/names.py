"""The control sockets of runs with names: the folder with the sockets, and the distinction between a name and a path."""

from __future__ import annotations

import os
import re
import stat

from hinge.border.scratch import temporary_place
from hinge.run.words import Wrong

NAME = re.compile(r"[A-Za-z0-9][A-Za-z0-9._-]{0,99}", re.ASCII)


def folder_of_names() -> str:
    """Returns this user's folder for names, which may not exist yet."""
    if os.environ.get("XDG_RUNTIME_DIR"):
        return os.path.join(os.environ["XDG_RUNTIME_DIR"], "hinge")
    return "/run/hinge" if os.geteuid() == 0 else os.path.join(temporary_place(), f"hinge-{os.geteuid()}")


def socket_of(text: str) -> str:
    """Returns the path of the socket with a name. If the text isn't the name of a socket, or a file has this path, returns the
    text."""
    if not NAME.fullmatch(text) or os.path.exists(text) or not os.path.lexists(folder_of_names()):
        return text
    path = os.path.join(own_folder(), text)
    return path if os.path.exists(path) else text


def running() -> str:
    """Returns words with the names of this user's runs, for the end of an error's message."""
    from hinge.border.asking import is_answered  # imported here, since only a wrong name needs the module

    names = sorted(os.listdir(own_folder())) if os.path.isdir(folder_of_names()) else []
    names = [name for name in names if is_answered(os.path.join(own_folder(), name))]
    return f"; these run: {', '.join(names)}" if names else ", from `hinge up` or --control"


def own_folder() -> str:
    """Returns the existing folder for names. Wrong: the folder belongs to another user, who could answer in the run's place."""
    folder = folder_of_names()
    status = os.lstat(folder)
    if not stat.S_ISDIR(status.st_mode) or status.st_uid != os.geteuid():
        raise Wrong(f"{folder}: it is another user's")
    return folder


def new_socket(name: str) -> str:
    """Returns the path for a new socket with a name, in a folder that only this user can use; creates the folder. Wrong: the name
    contains other characters, or the folder belongs to another user."""
    if not NAME.fullmatch(name):
        raise Wrong(f"--name {name}: a name has letters, digits, dots and hyphens")
    os.makedirs(folder_of_names(), 0o700, exist_ok=True)
    return os.path.join(own_folder(), name)
