//! Stands for spec/values: the value types, cut to what datatypes.rs and accessor.rs name.
//!
//! A default's value is "kept by the host" in 01; the code under comparison only asks
//! whether `initial_default` is `None`, clones it, and compares fields for equality.

use std::ops::Index;

use serde_json::Value as JsonValue;

use super::datatypes::{PrimitiveType, Type};
use crate::{Error, ErrorKind, Result};

/// A value that is not nested.
#[derive(Debug, Clone, PartialEq, Eq, Hash)]
pub enum PrimitiveLiteral {
    Boolean(bool),
    Int(i32),
    Long(i64),
    /// bits
    Float(u32),
    /// bits
    Double(u64),
    String(String),
    Binary(Vec<u8>),
    Int128(i128),
    UInt128(u128),
}

/// A value.
#[derive(Debug, Clone, PartialEq, Eq, Hash)]
pub enum Literal {
    Primitive(PrimitiveLiteral),
    Struct(Struct),
    List(Vec<Option<Literal>>),
    Map(Map),
}

/// A row.
#[derive(Debug, Clone, PartialEq, Eq, Hash, Default)]
pub struct Struct {
    fields: Vec<Option<Literal>>,
}

impl Index<usize> for Struct {
    type Output = Option<Literal>;
    fn index(&self, i: usize) -> &Self::Output {
        &self.fields[i]
    }
}

/// A map value.
#[derive(Debug, Clone, PartialEq, Eq, Hash, Default)]
pub struct Map {
    pairs: Vec<(Literal, Option<Literal>)>,
}

/// A value with its type.
#[derive(Debug, Clone, PartialEq, Eq)]
pub struct Datum {
    r#type: PrimitiveType,
    literal: PrimitiveLiteral,
}

impl Datum {
    pub(crate) fn new(r#type: PrimitiveType, literal: PrimitiveLiteral) -> Self {
        Datum { r#type, literal }
    }
}

impl Literal {
    /// Int literal.
    pub fn int(v: i32) -> Self {
        Literal::Primitive(PrimitiveLiteral::Int(v))
    }

    /// No default is ever read from JSON here.
    pub fn try_from_json(_: JsonValue, _: &Type) -> Result<Option<Self>> {
        Err(Error::new(ErrorKind::FeatureUnsupported, "values are kept by the host"))
    }

    /// No default is ever written to JSON here.
    pub fn try_into_json(self, _: &Type) -> Result<JsonValue> {
        Err(Error::new(ErrorKind::FeatureUnsupported, "values are kept by the host"))
    }
}
