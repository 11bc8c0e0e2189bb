"""The calls of `chunkcalls`, by what each is asked of."""

OF_NOTHING = ["dimensionality", "array_shape", "grid_shape", "configuration", "metadata"]
OF_CHUNK = ["chunk_shape", "chunk_shape_u64", "chunk_origin", "subset", "chunk_indices_inbounds"]
OF_INDEX = ["chunk_indices", "chunk_element_indices", "array_indices_inbounds", "locate", "chunk_indices_counted"]
OF_BOX = ["chunks_subset", "chunks_in_array_subset", "parts"]
WALKS = ["iter_chunk_indices", "iter_chunk_subsets", "iter_chunk_indices_and_subsets"]
# Of a target's array, and perhaps of a box of elements that goes there.
OF_TASKS = ["tasks", "task_counts"]
# Of another shape that the array gets.
OF_RESIZE = ["changed_chunks"]
OF_KEYS = ["encode", "decode"]
# Of a chunk's shape and a box of its elements.
OF_BYTES = ["byte_ranges"]
CALLS = [*OF_NOTHING, *OF_CHUNK, *OF_INDEX, *OF_BOX, *OF_TASKS, *OF_RESIZE, *WALKS, "runs", *OF_KEYS, *OF_BYTES]
# Those that a rectilinear grid alone has, and those that take an encoding besides a grid.
OF_RECTILINEAR = ["runs", "chunk_indices_counted"]
WITH_ENCODING = ["locate", "parts", *OF_TASKS]
