"""Models how a rechunking is planned as tasks, and how its tasks are chosen by cost.

A dimension is a chain of chunks (`chains`). A task fills a buffer from chunks of the source and empties it into chunks of
the target. Its buffer is a number of neighbouring chunks of the target along each dimension (`one_stage`). A plan has one to
four stages, with an intermediate array between two of them (`stages`). `limits` has the least that any plan reads.

All numbers are whole numbers. No module imports the library or numpy.
"""
