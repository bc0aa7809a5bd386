//! Stands for table.rs and spec/table_metadata.rs: the two getters the update reads.
use crate::spec::SchemaRef;

/// A table: its current schema and its last column id, nothing else.
#[derive(Debug, Clone)]
pub struct Table {
    metadata: TableMetadata,
}

/// The metadata.
#[derive(Debug, Clone)]
pub struct TableMetadata {
    schema: SchemaRef,
    last_column_id: i32,
}

impl Table {
    /// Both numbers as the caller gives them.
    pub fn new(schema: SchemaRef, last_column_id: i32) -> Self {
        Table { metadata: TableMetadata { schema, last_column_id } }
    }
    /// The metadata.
    pub fn metadata(&self) -> &TableMetadata {
        &self.metadata
    }
}

impl TableMetadata {
    /// The schema that the update starts from.
    pub fn current_schema(&self) -> &SchemaRef {
        &self.schema
    }
    /// The highest id ever given out.
    pub fn last_column_id(&self) -> i32 {
        self.last_column_id
    }
}
