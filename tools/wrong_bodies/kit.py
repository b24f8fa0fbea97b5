"""The kit's own Python code, as `tools/rt` has it."""
import importlib.machinery
import importlib.util
import os

TOOLS = os.path.dirname(os.path.dirname(os.path.realpath(__file__)))
LOADER = importlib.machinery.SourceFileLoader("tools_rt", f"{TOOLS}/rt")
COMMAND = importlib.util.module_from_spec(importlib.util.spec_from_loader("tools_rt", LOADER))
LOADER.exec_module(COMMAND)

loaded = COMMAND.loaded
# What `rt` knows of crates: their folders, their libraries, and how rattle is called on them.
rtlib = COMMAND.rt.rtlib
# Where the functions of a crate's source begin and end.
bodies = loaded("rt_plant_bodies", f"{COMMAND.folder()}/rt-plant-bodies")
