#!/usr/bin/env python3
"""Makes the source pictures of the encoded samples in the working folder: see README.md."""
import random


def write_ppm(name, side, pixel):
    with open(name, "wb") as file:
        file.write(b"P6\n%d %d\n255\n" % (side, side))
        file.write(bytes(v for y in range(side) for x in range(side) for v in pixel(x, y)))


noise = random.Random(1)
write_ppm("gradient.ppm", 16, lambda x, y: (16 * x, 16 * y, 255 - 8 * (x + y)))
write_ppm("noise.ppm", 150, lambda x, y: [noise.randrange(256) for _ in range(3)])
