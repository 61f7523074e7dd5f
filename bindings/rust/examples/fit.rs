//! Fits quotes as they came in, one of them sent nine times, and prices strikes off the curve, as examples/c/fit.c does: cargo run --example fit

use kesupayro::{fit, Quote, SviSlice};

/// Implied volatility of a slice at k, or 0 where it does not evaluate.
fn vol_at(slice: SviSlice, k: f64) -> f64 {
    slice.eval(k).map_or(0.0, |at| (at.w / slice.tau).sqrt())
}

fn main() -> Result<(), Box<dyn std::error::Error>> {
    let (forward, tau) = (100.0_f64, 0.25);
    let quoted = [(82.0, 0.355), (88.0, 0.304), (94.0, 0.252), (100.0, 0.258), (106.0, 0.209), (112.0, 0.228), (118.0, 0.252)];
    let mut quotes: Vec<Quote> = (101u64..)
        .zip(quoted)
        .map(|(number, (strike, vol)): (u64, (f64, f64))| Quote { number, k: (strike / forward).ln(), w: vol * vol * tau, weight: 1.0 })
        .collect();
    // The offline queue sends the stale quote again and again.
    quotes.extend([quotes[3]; 8]);
    let fitted = fit(tau, None, &quotes)?;
    println!("{} quotes read, {} kept", fitted.read, fitted.kept);
    println!("fitted, {:.2} vol points rmse, {} passes", 100.0 * fitted.rmse_vol, fitted.counts.passes);
    for ((strike, vol), point) in quoted.iter().zip(&fitted.points) {
        let curve = 100.0 * vol_at(fitted.slice, point.k);
        println!("strike {strike:3.0}  quoted {:.1} %  fitted {curve:.1} %  residual {:+.1}", 100.0 * vol, 100.0 * point.residual);
    }
    Ok(())
}
