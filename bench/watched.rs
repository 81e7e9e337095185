//! What the drivers with monitors share: the request for a monitor, a row in its updates, and a commit.
//!
//! Plain Rust, std only.

use crate::systems::{Exchange, by_identifier, transact};

/// A request of any method.
pub fn call(id: u64, method: &str, params: &str, result: String) -> Exchange {
    Exchange { id, request: format!("{{\"id\":{id},\"method\":\"{method}\",\"params\":[{params}]}}"), result }
}

/// The request for a monitor, whose first answer lists these rows.
pub fn monitor(n: usize, rows: &[Row]) -> Exchange {
    let rows: Vec<String> = rows.iter().map(|row| format!("\"{}\":{{\"new\":{{{}}}}}", row.identifier, row.values())).collect();
    let params = format!("\"Net\",\"monitor {n:02}\",{{\"Switch\":{{\"columns\":[\"name\",\"load\"]}}}}");
    call(n as u64, "monitor", &params, format!("{{\"Switch\":{{{}}}}}", rows.join(",")))
}

/// A row as a monitor sends it.
pub struct Row {
    pub identifier: String,
    pub n: usize,
    pub load: usize,
}

impl Row {
    /// The columns. The peer has them in the same order.
    pub fn values(&self) -> String {
        format!("\"load\":{},\"name\":\"switch {}\"", self.load, self.n)
    }

    /// The update that a monitor is sent after a change of the load by one.
    pub fn update(&self, monitor: usize) -> String {
        format!(
            "{{\"id\":null,\"method\":\"update\",\"params\":[\"monitor {monitor:02}\",{{\"Switch\":{{\"{}\":\
             {{\"new\":{{{}}},\"old\":{{\"load\":{}}}}}}}}}]}}",
            self.identifier,
            self.values(),
            self.load - 1
        )
    }

    /// A commit: an update of a column that is in no index.
    pub fn change(&mut self) -> Exchange {
        self.load += 1;
        let (condition, load) = (by_identifier(&self.identifier), self.load);
        let operation =
            format!(",{{\"op\":\"update\",\"table\":\"Switch\",\"where\":[{condition}],\"row\":{{\"load\":{load}}}}}");
        transact(0, &operation, "[{\"count\":1}]".into())
    }
}
