//! Stands for transaction/mod.rs: the struct that action.rs pushes into, and the modules.

include!(concat!(env!("OUT_DIR"), "/transaction.rs"));

pub use action::*;
pub use update_schema::AddColumn;

/// Never made: the judge calls the action's `commit` itself.
pub struct Transaction {
    actions: Vec<action::BoxedTransactionAction>,
}
