//! The text of `--help`.
#![forbid(unsafe_code)]

pub const PROGRAM: &str = "\
pivatsohy: lists the strokes of a library that are most like a given one. What it answers is proved.

  pivatsohy check LIBRARY                          is the library whole, and what is it
  pivatsohy prepare LIBRARY CACHE                  write the cache of its codes, once
  pivatsohy list LIBRARY --query FILE -k 10        list the strokes nearest to the query
  pivatsohy agree LIBRARY --query FILE -k 10       in how many places is that the exact list
  pivatsohy pack STROKES.csv LIBRARY --metric l2 --model NAME
                                                   make a library of a file of strokes
  pivatsohy explain N                              what a refusal's number means, and what to do

A LIBRARY is a folder with MANIFEST and SEGMENTS, or a vecnook store as it stands on the disk (CURRENT, gen-*/).
`pivatsohy COMMAND --help` has the options of a command. `--` ends the options; `--name VALUE` and `--name=VALUE` are the same.

Exit status: 0; 1 refused, with the number and place on standard error; 2 bad usage, or a file that cannot be read or written.
";

pub const CHECK: &str = "\
pivatsohy check LIBRARY

Reads the library and checks every byte of it: manifest, checksums, records. Prints what it is, or refuses with a number and a place.
LIBRARY is a folder with MANIFEST and SEGMENTS, whose expected checksum is the manifest's own, or a vecnook store, whose expected
checksum is that of CURRENT.
";

pub const PREPARE: &str = "\
pivatsohy prepare LIBRARY CACHE [--force] [--platform NAME] [--root PATH]

Checks the library and writes its cache: one byte a coordinate, with which `list` need not encode the strokes each time.
For a folder, CACHE is a file; `LIBRARY/CACHE` is the one that `list` takes by itself. For a vecnook store it is a cache folder outside
the store, with LEASE and DATA, which vecnook opens too.
The cache is written under a temporary name beside CACHE (CACHE.tmp-PROCESS-0; in a cache folder that is there, DATA.pending-PROCESS-0)
and renamed when it is whole; what an interrupted run leaves under such a name may be removed.

  --force          replace CACHE if it is a cache
  --platform NAME  the platform that the cache is made for (default: that of the folder's PLACE, else this machine's)
  --root PATH      the root that the cache is made for (default: that of the folder's PLACE, else LIBRARY's canonical path)
";

macro_rules! search_options {
    () => {
        "\
  --query FILE       the query: a file of f32s (little-endian), or, if all its bytes are printable ASCII or line ends, of decimal
                     numbers with blanks or commas between them
  --query-f32 FILE   the same, f32s without a look at it        --query-text FILE  the same, decimal numbers without a look at it
  --numbers \"N N ..\" the query itself
  -k K               how many places (default 10)
  --limit L          how many candidates are measured exactly, at least k (default 1,000, or k where that is more)
  --cache FILE       search this cache; a cache folder of vecnook stands for its DATA
  --resident         encode the strokes in memory; without --cache and --resident: LIBRARY/CACHE if it is there, else in memory
  --ids FILE         only strokes with these ids: one decimal id a line
  --ids-binary FILE  the same, u64s (little-endian)
  --platform NAME    the platform that the cache was made for (default: that of the folder's PLACE, else this machine's)
  --root PATH        the root that the cache was made for (default: that of the folder's PLACE, else LIBRARY's canonical path)
"
    };
}

pub const LIST: &str = concat!(
    "\
pivatsohy list LIBRARY (--query FILE | --numbers \"..\") [-k K] [--limit L] [option ..]

Lists the k strokes nearest to the query, the nearest first: place, id, distance, its bits in hexadecimal, row in the library, metadata.
Characters of the metadata that drive a terminal are printed as \\n, \\r, \\t or \\u{number}, a backslash as two.

",
    search_options!(),
    "\
  --plain            print what the list program prints, to the letter: `generation ..`, then place, id, bits, row; or `refused N at P`
  --json             print one object; ids, generation and sequence are strings, since they go beyond 2^53
"
);

pub const AGREE: &str = concat!(
    "\
pivatsohy agree LIBRARY (--query FILE | --numbers \"..\") [-k K] [--limit L] [option ..]

Measures every eligible stroke and prints in how many places the list holds the id that the exact list holds there.

",
    search_options!(),
    "\
  --plain            print `agreement N of PLACES`, or `refused N at P`
  --json             print one object
"
);

pub const PACK: &str = "\
pivatsohy pack STROKES.csv LIBRARY --metric l2|cosine|ip --model NAME [--header] [--generation N] [--sequence N]

Makes a library of a file of strokes, one a line: id, metadata, numbers, with commas between them (RFC 4180: metadata with commas,
quotes or line ends stands in quotes, its quotes doubled). Ids are whole numbers below 2^64, in any order, none twice; all strokes have
as many numbers, 1 to 4,096, each taken as the nearest f32. Empty lines are passed over.
LIBRARY, which must not be there yet, becomes a folder with MANIFEST and SEGMENTS. It is written under a temporary name beside it
(LIBRARY.tmp-PROCESS-0), checked by the proved check, and then renamed.

  --metric l2|cosine|ip  how distances are measured: squared L2, cosine, negative inner product
  --model NAME           what made the numbers, 1 to 512 bytes; strokes of different models are not to be compared
  --header               pass over the first line
  --generation N         the library's generation, 1 or more (default 1)
  --sequence N           the library's sequence (default 0)
";

pub const EXPLAIN: &str = "\
pivatsohy explain [N]

Says what the refusal N means, where it is given, what its place is, and what to do about it. Without N: one line for each number.
";
