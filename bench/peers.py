"""Times an erosion or an opening of a sheet by OpenCV, with one thread, or by scipy.

    peers.py PEER KIND CALL WIDTH MASK SHEET RESULT RUNS

PEER is opencv or scipy, KIND gray or return, CALL erode or open. MASK has lines of 0 and 1. SHEET and RESULT are files of
cells. Prints the best time in milliseconds. Ends with status 3 where the peer is not installed."""

import sys
import time

try:
    import numpy as np

    if sys.argv[1] == "opencv":
        import cv2

        cv2.setNumThreads(1)
    else:
        from scipy import ndimage
except ImportError:
    sys.exit(3)

peer, kind, call, width, mask_file, sheet_file, result_file, runs = sys.argv[1:]
cell, least, greatest = {"gray": (np.uint8, 0, 255), "return": (np.float32, -np.inf, np.inf)}[kind]
sheet = np.fromfile(sheet_file, dtype=cell).reshape(-1, int(width))
mask = np.array([[int(c) for c in line.strip()] for line in open(mask_file)], dtype=np.uint8)
# Only the rows and columns up to the last point on either side: each mask here is as far from its origin on both.
rows, columns = np.nonzero(mask)
v, u = max(abs(rows - 15)), max(abs(columns - 15))
mask = np.ascontiguousarray(mask[15 - v : 16 + v, 15 - u : 16 + u])
turned = np.ascontiguousarray(mask[::-1, ::-1])
result = np.empty_like(sheet)


def by_opencv():
    cv2.erode(sheet, mask, dst=result, borderType=cv2.BORDER_CONSTANT, borderValue=greatest)
    if call == "open":
        cv2.dilate(result, turned, dst=result, borderType=cv2.BORDER_CONSTANT, borderValue=least)


def by_scipy():
    ndimage.grey_erosion(sheet, footprint=mask, output=result, mode="constant", cval=greatest)
    if call == "open":
        # scipy turns the mask of a dilation itself.
        result[:] = ndimage.grey_dilation(result, footprint=mask, mode="constant", cval=least)


best = float("inf")
for _ in range(int(runs)):
    start = time.perf_counter()
    by_opencv() if peer == "opencv" else by_scipy()
    best = min(best, time.perf_counter() - start)
result.tofile(result_file)
print(best * 1000)
