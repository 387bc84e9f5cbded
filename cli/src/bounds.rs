//! Bounds of document 01 that the program needs to lend slices and to read files; a test holds them to the header's.
#![forbid(unsafe_code)]

pub const MAX_MANIFEST_BYTES: usize = 67_108_864;
pub const MAX_ROWS: usize = 1_000_000;
pub const MAX_SEGMENTS: usize = 1024;
pub const MAX_SEGMENT_BYTES: usize = 67_108_864;
pub const MAX_DIMENSIONS: usize = 4096;
pub const MAX_MODEL_BYTES: usize = 512;
pub const MAX_METADATA_BYTES: usize = 16_384;
pub const MAX_CODE_BYTES: usize = 536_870_912;
pub const MAX_K: usize = 10_000;
pub const MAX_LIMIT: usize = 65_536;
pub const MAX_IDS: usize = 1_000_000;
/// The default options of sizing, preparing and opening.
pub const DEFAULT_MAX_CACHE_BYTES: usize = 1_073_741_824;
pub const DEFAULT_BUFFER_BYTES: usize = 1_048_576;
/// The bytes of a row in the manifest.
pub const ENTRY_BYTES: usize = 20;

#[cfg(test)]
mod tests {
    use crate::refusal::HEADER;

    #[test]
    fn bounds_are_the_headers() {
        let defined = |name: &str| {
            let start = format!("#define PV_{name} ");
            let line = HEADER.lines().find_map(|line| line.strip_prefix(start.as_str())).expect(name);
            line.split_whitespace().next().unwrap().parse::<usize>().unwrap()
        };
        for (name, bound) in [
            ("MAX_MANIFEST_BYTES", super::MAX_MANIFEST_BYTES),
            ("MAX_ROWS", super::MAX_ROWS),
            ("MAX_SEGMENTS", super::MAX_SEGMENTS),
            ("MAX_SEGMENT_BYTES", super::MAX_SEGMENT_BYTES),
            ("MAX_DIMENSIONS", super::MAX_DIMENSIONS),
            ("MAX_MODEL_BYTES", super::MAX_MODEL_BYTES),
            ("MAX_METADATA_BYTES", super::MAX_METADATA_BYTES),
            ("MAX_CODE_BYTES", super::MAX_CODE_BYTES),
            ("MAX_K", super::MAX_K),
            ("MAX_LIMIT", super::MAX_LIMIT),
            ("MAX_IDS", super::MAX_IDS),
            ("DEFAULT_MAX_CACHE_BYTES", super::DEFAULT_MAX_CACHE_BYTES),
            ("DEFAULT_BUFFER_BYTES", super::DEFAULT_BUFFER_BYTES),
            ("ENTRY_BYTES", super::ENTRY_BYTES),
        ] {
            assert_eq!(defined(name), bound, "{name}");
        }
    }
}
