"""Adds the folders of this repository's modules to those in which Python looks. Programs run this file first, by runpy."""
import os
import sys

ROOT = os.path.dirname(os.path.dirname(os.path.realpath(__file__)))
FOLDERS = ("tools", "tests", "bench", "bindings/python", "bindings/web", "bindings/javascript", "bindings/qgis")

sys.dont_write_bytecode = True
sys.path[:0] = [it for it in (f"{ROOT}/{name}" for name in FOLDERS) if it not in sys.path]
