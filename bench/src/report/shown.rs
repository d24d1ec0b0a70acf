//! Sizes, times and factors as text.

use std::time::Duration;

/// A size in bytes: KB are 1,024 bytes.
pub fn size_shown(size: usize) -> String {
    match size {
        1_048_576.. => format!("{} MiB", size / 1_048_576),
        _ => format!("{} KB", size / 1024),
    }
}

/// A factor with two digits that count.
pub fn factor(factor: f64) -> String {
    match factor {
        10.0.. => format!("{factor:.0}"),
        1.0.. => format!("{factor:.1}"),
        _ => format!("{factor:.2}"),
    }
}

/// A ratio of two like things, with hundredths or two digits that count.
pub fn ratio_shown(ratio: f64) -> String {
    match ratio {
        10.0.. => format!("{ratio:.0}"),
        0.1.. => format!("{ratio:.2}"),
        _ => {
            let zeros = -ratio.max(1e-9).log10().floor();
            format!("{ratio:.*}", zeros as usize + 1)
        }
    }
}

/// A time in a readable unit.
pub fn time_shown(time: Duration) -> String {
    match time.as_secs_f64() {
        seconds @ 1.0.. => format!("{seconds:.1} s"),
        seconds @ 0.001.. => format!("{:.1} ms", seconds * 1e3),
        seconds @ 0.000_001.. => format!("{:.1} µs", seconds * 1e6),
        seconds => format!("{:.0} ns", seconds * 1e9),
    }
}

#[cfg(test)]
mod tests {
    use super::*;

    #[test]
    fn units_fit_what_is_shown() {
        assert_eq!([4096, 1_048_576].map(size_shown), ["4 KB", "1 MiB"]);
        assert_eq!([0.754, 3.12, 27.3].map(factor), ["0.75", "3.1", "27"]);
        let ratios = [0.000_002_67, 0.001_96, 0.974, 1.016, 500.2].map(ratio_shown);
        assert_eq!(ratios, ["0.0000027", "0.0020", "0.97", "1.02", "500"]);
        let times = [90, 2_500, 7_000_000, 30_200_000_000].map(Duration::from_nanos);
        assert_eq!(
            times.map(time_shown),
            ["90 ns", "2.5 µs", "7.0 ms", "30.2 s"]
        );
    }
}
