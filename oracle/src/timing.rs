//! What the original's util.rs gives to the rarity simulation: `time_info!`, without the clock.

macro_rules! time_info {
    ($name:expr, $f:block) => {{
        let result = $f;
        log::info!("{} (took {:?})", $name, ());
        result
    }};
}
