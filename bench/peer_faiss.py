"""bench/peer_faiss.py DIRECTORY: times FAISS on the vectors and queries that `entries export` wrote there.

Its 8-bit scalar quantizer with a flat refine over as many candidates as the limit, one query at a time, one thread; each figure is the
median of the thread's processor time over 5 runs of five queries. Cosine is the inner product of vectors normalized before, which is not
timed. Lines on standard output, for `entries --peer`: rows, dimensions, metric, k, limit, milliseconds. On the error output: in how many
of a hundred queries' distances the bits differ between one query alone and a batch of all.
"""

import os
import sys
import time

import faiss
import numpy as np

SIZES = [(10, 10), (10, 1000), (1000, 1000), (10, 65536), (1000, 65536)]
METRICS = [
    ("squared_l2", faiss.METRIC_L2),
    ("cosine", faiss.METRIC_INNER_PRODUCT),
    ("negative_inner_product", faiss.METRIC_INNER_PRODUCT),
]


def median_ms(call, queries):
    times = []
    for _ in range(5):
        for query in queries:
            start = time.thread_time_ns()
            call(query)
            times.append(time.thread_time_ns() - start)
    return sorted(times)[len(times) // 2] / 1e6


def bits_that_differ(index, queries, k):
    """Places at which the distances of single calls and of one call for all differ in a bit."""
    batch = index.search(queries, k)[0].view(np.uint32)
    single = np.concatenate([index.search(query[None], k)[0] for query in queries]).view(np.uint32)
    return int((batch != single).sum()), batch.size


def measure(directory, shape):
    rows, dimensions = map(int, shape.split("x"))
    read = lambda name: np.fromfile(os.path.join(directory, name), dtype="<f4").reshape(-1, dimensions)
    vectors, queries = read(shape), read(shape + ".queries")
    for name, metric in METRICS:
        if name == "cosine":
            faiss.normalize_L2(vectors)
            faiss.normalize_L2(queries)
        elif name == "negative_inner_product":
            vectors, queries = read(shape), read(shape + ".queries")
        index = faiss.IndexRefineFlat(faiss.IndexScalarQuantizer(dimensions, faiss.ScalarQuantizer.QT_8bit, metric))
        index.train(vectors)
        index.add(vectors)
        for k, limit in SIZES:
            index.k_factor = min(limit, rows) / k
            print(rows, dimensions, name, k, limit, median_ms(lambda query: index.search(query[None], k), queries), flush=True)
        if rows * dimensions <= 12_800_000:
            flat = faiss.IndexFlat(dimensions, metric)
            flat.add(vectors)
            hundred = vectors[:100] + np.float32(0.25)
            index.k_factor = 100
            for what, which in [("with refine", index), ("flat", flat)]:
                differ, of = bits_that_differ(which, hundred, 10)
                print(f"{shape} {name}, {what}: {differ} of {of} distances differ in their bits alone and in a batch", file=sys.stderr)


faiss.omp_set_num_threads(1)
for shape in sorted(name for name in os.listdir(sys.argv[1]) if not name.endswith(".queries")):
    measure(sys.argv[1], shape)
