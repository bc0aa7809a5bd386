//! Stands for catalog.rs: the two messages `UpdateSchemaAction::commit` hands out.
use crate::spec::Schema;

/// What a commit changes.
#[derive(Debug, Clone)]
pub enum TableUpdate {
    /// The new schema, as the crate's builder built it.
    AddSchema {
        /// the schema
        schema: Schema,
    },
    /// Which schema is current (-1: the one just added).
    SetCurrentSchema {
        /// its id
        schema_id: i32,
    },
}

/// What a commit asks of the table.
#[derive(Debug, Clone)]
pub enum TableRequirement {
    /// The schema the update was made from.
    CurrentSchemaIdMatch {
        /// its id
        current_schema_id: i32,
    },
}
