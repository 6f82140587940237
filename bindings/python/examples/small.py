"""Makes a picture small enough for a page: 1,000 pixels wide, 256 colours.

use: small.py PICTURE.png SMALL.png
"""
import sys

from PIL import Image

picture = Image.open(sys.argv[1]).convert("RGB")
wide, high = picture.size
narrow = picture.resize((1000, round(high * 1000 / wide)), Image.LANCZOS)
narrow.quantize(256, method=Image.Quantize.MAXCOVERAGE, dither=Image.Dither.NONE).save(sys.argv[2], optimize=True)
