"""Stands for the package of the tools, by whose name the scripts import its modules: they lie in
tools/lwcrun_tools."""

import os

__path__ = [os.path.join(os.path.dirname(os.path.dirname(os.path.realpath(__file__))), "tools", "lwcrun_tools")]
