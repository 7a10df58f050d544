//! The interface of the server and the client, and what the server serves. It knows nothing of vetting.

capnp::generated_code!(pub mod calculator_capnp);

use calculator_capnp::{calculator, counter};
use capnp::Error;
use std::cell::Cell;
use std::rc::Rc;

/// The most rows of a reply. A peer decides how many replies it leaves unread.
const MOST_ROWS: u32 = 20_000;

struct Counter(Cell<u64>);

impl counter::Server for Counter {
    async fn next(
        self: Rc<Self>,
        _: counter::NextParams,
        mut results: counter::NextResults,
    ) -> Result<(), Error> {
        results.get().set_number(self.0.get());
        self.0.set(self.0.get().wrapping_add(1));
        Ok(())
    }
}

/// The service.
pub struct Calculator;

impl calculator::Server for Calculator {
    async fn add(
        self: Rc<Self>,
        params: calculator::AddParams,
        mut results: calculator::AddResults,
    ) -> Result<(), Error> {
        let params = params.get()?;
        results.get().set_sum(params.get_a() + params.get_b());
        Ok(())
    }

    async fn counter(
        self: Rc<Self>,
        params: calculator::CounterParams,
        mut results: calculator::CounterResults,
    ) -> Result<(), Error> {
        let counter = Counter(params.get()?.get_start().into());
        results.get().set_counter(capnp_rpc::new_client(counter));
        Ok(())
    }

    async fn rows(
        self: Rc<Self>,
        params: calculator::RowsParams,
        mut results: calculator::RowsResults,
    ) -> Result<(), Error> {
        let count = params.get()?.get_count();
        if count > MOST_ROWS {
            return Err(Error::failed("too many rows".into()));
        }
        let mut rows = results.get().init_rows(count);
        for at in 0..count {
            let mut row = rows.reborrow().get(at);
            row.set_id(u64::from(at));
            row.set_name(format!("row {at}"));
        }
        Ok(())
    }

    // Looks at each name, and counts them.
    async fn store(
        self: Rc<Self>,
        params: calculator::StoreParams,
        mut results: calculator::StoreResults,
    ) -> Result<(), Error> {
        let mut count = 0;
        for row in params.get()?.get_rows()?.iter() {
            count += u32::from(!row.get_name()?.is_empty());
        }
        results.get().set_count(count);
        Ok(())
    }

    async fn fail(
        self: Rc<Self>,
        _: calculator::FailParams,
        _: calculator::FailResults,
    ) -> Result<(), Error> {
        Err(Error::failed("this call always fails".into()))
    }
}
