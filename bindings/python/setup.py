"""The wheel: one shared object for every CPython from 3.11 on. The rest stands in pyproject.toml."""
from setuptools import setup

setup(cffi_modules=["native.py:ffi"], options={"bdist_wheel": {"py_limited_api": "cp311"}})
