//! The four error macros that the copied files use. Their source is not
//! supplied; the uses show all there is to them: each returns, from the
//! function it stands in, an `io::Error` of its kind with a formatted message.

macro_rules! already_exists {
    ($($message:tt)+) => {
        return Err(::std::io::Error::new(
            ::std::io::ErrorKind::AlreadyExists,
            format!($($message)+),
        ))
    };
}

macro_rules! invalid_data {
    ($($message:tt)+) => {
        return Err(::std::io::Error::new(
            ::std::io::ErrorKind::InvalidData,
            format!($($message)+),
        ))
    };
}

macro_rules! invalid_input {
    ($($message:tt)+) => {
        return Err(::std::io::Error::new(
            ::std::io::ErrorKind::InvalidInput,
            format!($($message)+),
        ))
    };
}

macro_rules! not_found {
    ($($message:tt)+) => {
        return Err(::std::io::Error::new(
            ::std::io::ErrorKind::NotFound,
            format!($($message)+),
        ))
    };
}
