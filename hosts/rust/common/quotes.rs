//! Size quotes and the default width, by document 01: block by block, and all eight widths tried.

/// The sum over blocks of (2^w - 1) + m times the smaller of 2 and w.
pub fn quote(m: u64, l: u64, width: u64) -> u64 {
    let mut sum = 0;
    let mut first = 0;
    while first < l {
        let w = width.min(l - first);
        sum += (1 << w) - 1 + m * w.min(2);
        first += w;
    }
    sum
}

/// What width 0 means: the width that quotes least, the first where several do. Sizes above 1,024 have no default, and are refused before it matters:
/// 1,024 stands for them.
pub fn default_width(m: u64, l: u64) -> u64 {
    let (m, l) = (m.min(1024), l.min(1024));
    let mut best = 1;
    for width in 2..=8 {
        if quote(m, l, width) < quote(m, l, best) {
            best = width;
        }
    }
    best
}
