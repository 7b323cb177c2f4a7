"""Runs a design with its test bench by Icarus Verilog."""
import os
import shutil
import subprocess
import tempfile

from verilogging.bench import bench
from verilogging.design import design


def is_there():
    """Whether the simulator can be run."""
    return shutil.which('iverilog') is not None and shutil.which('vvp') is not None


def text_of(modules, items, depth, count):
    """The design with its test bench."""
    return '\n'.join(list(design(modules, items, depth)) + list(bench(modules, items, depth, count))) + '\n'


def simulate(modules, items, depth, count):
    """What the test bench prints."""
    with tempfile.TemporaryDirectory() as folder:
        source, program = os.path.join(folder, 'design.v'), os.path.join(folder, 'design.vvp')
        with open(source, 'w', encoding='ascii') as file:
            file.write(text_of(modules, items, depth, count))
        subprocess.run(['iverilog', '-g2005', '-Wall', '-Wno-timescale', '-s', 'bench', '-o', program, source], check=True)
        return subprocess.run(['vvp', '-n', program], stdout=subprocess.PIPE, check=True).stdout.decode('ascii')
