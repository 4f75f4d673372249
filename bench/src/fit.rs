//! Lines through measured points: the squares of the relative distances are least, since what is
//! measured of a longer time is off by more.

/// A straight line.
#[derive(Clone, Copy, Debug)]
pub struct Line {
    pub slope: f64,
    pub at_0: f64,
}

impl Line {
    /// The line through at least two points that do not stand above each other; both numbers of each
    /// are at least 0, and the second is more.
    pub fn through(points: &[(f64, f64)]) -> Line {
        let ones: Vec<([f64; 2], f64)> = points.iter().map(|&(x, y)| ([1.0, x], y)).collect();
        let two = Two::through(&ones);
        Line {
            slope: two.second,
            at_0: two.first,
        }
    }

    pub fn at(&self, x: f64) -> f64 {
        self.at_0 + self.slope * x
    }
}

/// So much for each of two things, and nothing else.
#[derive(Clone, Copy, Debug)]
pub struct Two {
    pub first: f64,
    pub second: f64,
}

impl Two {
    /// Of points of two numbers and a sum.
    pub fn through(points: &[([f64; 2], f64)]) -> Two {
        let [mut aa, mut ab, mut bb, mut a, mut b] = [0.0; 5];
        for &([first, second], y) in points {
            let (first, second) = (first / y, second / y);
            aa += first * first;
            ab += first * second;
            bb += second * second;
            a += first;
            b += second;
        }
        let area = aa * bb - ab * ab;
        Two {
            first: (a * bb - b * ab) / area,
            second: (aa * b - ab * a) / area,
        }
    }

    pub fn at(&self, [first, second]: [f64; 2]) -> f64 {
        self.first * first + self.second * second
    }
}

/// How far points are from a line on average, relative to what it says: pairs of what it says and what
/// was measured.
pub fn distance(pairs: impl Iterator<Item = (f64, f64)>) -> f64 {
    let distances: Vec<f64> = pairs.map(|(line, y)| (y / line - 1.0).abs()).collect();
    distances.iter().sum::<f64>() / distances.len() as f64
}

/// The power of its place with which a time grows: the slope on logarithmic scales, over the second half
/// of the points.
pub fn power(points: &[(f64, f64)]) -> f64 {
    let later = &points[points.len() / 2..];
    let mean = |of: fn(&(f64, f64)) -> f64| later.iter().map(of).sum::<f64>() / later.len() as f64;
    let (x_mean, y_mean) = (mean(|(x, _)| x.ln()), mean(|(_, y)| y.ln()));
    let off = |&(x, y): &(f64, f64)| (x.ln() - x_mean, y.ln() - y_mean);
    let products: f64 = later.iter().map(off).map(|(x, y)| x * y).sum();
    let squares: f64 = later.iter().map(off).map(|(x, _)| x * x).sum();
    products / squares
}
