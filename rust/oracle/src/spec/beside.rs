//! `index_parents` and `ReassignFieldIds` stand in private modules of `schema`, and no module
//! can be put into the crate's tree from outside. So index.rs, id_reassigner.rs and the
//! utils.rs that they use are compiled a second time, unchanged, beside `schema`. The `use`
//! lines are those of schema/mod.rs, which the files take by `use super::*`.

use std::collections::{HashMap, HashSet};
use std::sync::Arc;

use bimap::BiHashMap;
use itertools::Itertools;

use super::datatypes::{
    LIST_FIELD_NAME, ListType, MAP_KEY_FIELD_NAME, MAP_VALUE_FIELD_NAME, MapType, NestedFieldRef,
    PrimitiveType, StructType, Type,
};
use super::schema::{Schema, SchemaVisitor, visit_struct};
use crate::error::Result;
use crate::{Error, ErrorKind};

include!(concat!(env!("OUT_DIR"), "/beside.rs"));
