//! Parts of a head's file that are one of several: a table with one key, which says which one it is, as `[wave.injector]`.

use serde::de::{self, DeserializeSeed, Deserializer};
use std::marker::PhantomData;

/// A key that is none of them. It fails where the key's value is read, so that the message has the key's own place.
pub struct Unknown<T> {
    pub names: &'static [&'static str],
    pub of: PhantomData<T>,
}

impl<'de, T> DeserializeSeed<'de> for Unknown<T> {
    type Value = T;

    fn deserialize<D: Deserializer<'de>>(self, _: D) -> Result<T, D::Error> {
        Err(de::Error::custom(format!("there is no such kind: take one of {}", self.names.join(", "))))
    }
}

/// An enum that is read from such a table.
#[macro_export]
macro_rules! choice {
    ($(#[$doc:meta])* $name:ident { $($key:literal => $variant:ident($part:ty)),+ $(,)? }) => {
        $(#[$doc])*
        #[derive(Debug, Clone)]
        pub enum $name {
            $($variant($part)),+
        }

        impl<'de> serde::Deserialize<'de> for $name {
            fn deserialize<D: serde::Deserializer<'de>>(from: D) -> Result<Self, D::Error> {
                const NAMES: &[&str] = &[$($key),+];
                struct Reading;
                impl<'de> serde::de::Visitor<'de> for Reading {
                    type Value = $name;

                    fn expecting(&self, f: &mut std::fmt::Formatter) -> std::fmt::Result {
                        write!(f, "a table with one of {}", NAMES.join(", "))
                    }

                    fn visit_map<A: serde::de::MapAccess<'de>>(self, mut map: A) -> Result<$name, A::Error> {
                        let key: Option<String> = map.next_key()?;
                        let chosen = match key.as_deref() {
                            $(Some($key) => $name::$variant(map.next_value()?),)+
                            Some(_) => map.next_value_seed($crate::head::choice::Unknown { names: NAMES, of: std::marker::PhantomData })?,
                            None => return Err(serde::de::Error::custom(format!("it needs one of {}", NAMES.join(", ")))),
                        };
                        match map.next_key::<String>()? {
                            None => Ok(chosen),
                            Some(_) => Err(serde::de::Error::custom(format!("it takes one of {}, not two", NAMES.join(", ")))),
                        }
                    }
                }
                from.deserialize_map(Reading)
            }
        }
    };
}
