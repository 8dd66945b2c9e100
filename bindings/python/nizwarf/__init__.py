"""File systems in Python over FUSE: override the methods of `FileSystem`, and call `mount`.

The library libnizwarf decodes each request of the kernel, and encodes the reply. Its calls and replies are proved to be
those of a written grammar for all bytes that a request may have; this package is tested.
"""
from ._library import Attr, Connection, Has, Lock, Option, Request, SetAttr, Statfs, Statx, StatxTime, ToSet
from .file_system import DirectoryEntry, Entry, FileSystem, OpenFile, OpenFlag, Opened, RenameFlag
from .server import mount, serve

__all__ = ["Attr", "Connection", "DirectoryEntry", "Entry", "FileSystem", "Has", "Lock", "OpenFile", "OpenFlag", "Opened",
           "Option", "RenameFlag", "Request", "SetAttr", "Statfs", "Statx", "StatxTime", "ToSet", "mount", "serve"]
