"""python3 -m hypercube_tools"""
import sys

from .command_line import main

sys.exit(main(sys.argv[1:]))
