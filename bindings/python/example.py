"""The chunks and the keys of a million random elements."""

import numpy as np
from zarrs_chunks import Encoding, Grid

grid = Grid([10000, 10000, 10000], {"name": "regular", "configuration": {"chunk_shape": [100, 100, 100]}})
indices = np.random.default_rng(0).integers(0, 10000, (1_000_000, 3))
chunks, found = grid.chunk_indices(indices)
keys = Encoding("default").encode(chunks)
print(chunks[:2], found.all(), keys[:2], len(keys))
