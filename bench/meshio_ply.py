#!/usr/bin/env python3
"""meshio's reader and writer of binary PLY: meshio_ply.py FILE OUT reads a file, writes it again, and prints the processor time of both in milliseconds."""
import sys
import time

import meshio

begin = time.thread_time()
mesh = meshio.read(sys.argv[1])
middle = time.thread_time()
meshio.write(sys.argv[2], mesh, binary=True)
print("%.3f %.3f" % ((middle - begin) * 1000, (time.thread_time() - middle) * 1000))
