//! Bytes that are never run, so that the code linked behind them lies further on: how long a loop takes depends on where
//! it lies. A function begins at a multiple of 16, so with 0, 16, 32 and 48 bytes each has every place in a cache line.

#[used]
static KEPT: unsafe extern "C" fn() = bench_pad;

extern "C" {
    fn bench_pad();
}

macro_rules! pad {
    ($when:meta, $bytes:literal) => {
        #[cfg($when)]
        std::arch::global_asm!(
            ".globl bench_pad",
            ".p2align 4",
            "bench_pad:",
            concat!(".fill ", $bytes)
        );
    };
}

pad!(
    not(any(feature = "pad16", feature = "pad32", feature = "pad48")),
    "16"
);
pad!(feature = "pad16", "32");
pad!(feature = "pad32", "48");
pad!(feature = "pad48", "64");
