//! What the Rust needs of the rest of its repository: the error that carries a text.

pub mod error {
    #[derive(Debug, Clone, PartialEq)]
    pub enum MMError {
        InvalidConfiguration(String),
        InvalidMarketState(String),
        NumericalError(String),
    }

    pub type MMResult<T> = Result<T, MMError>;

    impl std::fmt::Display for MMError {
        fn fmt(&self, f: &mut std::fmt::Formatter<'_>) -> std::fmt::Result {
            match self {
                Self::InvalidConfiguration(s) => write!(f, "invalid configuration: {s}"),
                Self::InvalidMarketState(s) => write!(f, "invalid market state: {s}"),
                Self::NumericalError(s) => write!(f, "numerical error: {s}"),
            }
        }
    }
}
