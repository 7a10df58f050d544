//! What src/lib.rs of examples/rust/rpc is for `capnp` 0.14 and 0.19, whose methods return a promise.

// (capnpc 0.19 writes lifetimes that clippy of newer Rust would leave out)
#[allow(clippy::needless_lifetimes)]
pub mod calculator_capnp {
    include!(concat!(env!("OUT_DIR"), "/calculator_capnp.rs"));
}

use calculator_capnp::{calculator, counter};
use capnp::capability::Promise;
use capnp::Error;
use capnp_rpc::pry;

/// The most rows of a reply. A peer decides how many replies it leaves unread.
const MOST_ROWS: u32 = 20_000;

struct Counter(u64);

impl counter::Server for Counter {
    fn next(
        &mut self,
        _: counter::NextParams,
        mut results: counter::NextResults,
    ) -> Promise<(), Error> {
        results.get().set_number(self.0);
        self.0 = self.0.wrapping_add(1);
        Promise::ok(())
    }
}

/// The service.
pub struct Calculator;

impl calculator::Server for Calculator {
    fn add(
        &mut self,
        params: calculator::AddParams,
        mut results: calculator::AddResults,
    ) -> Promise<(), Error> {
        let params = pry!(params.get());
        results.get().set_sum(params.get_a() + params.get_b());
        Promise::ok(())
    }

    fn counter(
        &mut self,
        params: calculator::CounterParams,
        mut results: calculator::CounterResults,
    ) -> Promise<(), Error> {
        let start = pry!(params.get()).get_start();
        results
            .get()
            .set_counter(capnp_rpc::new_client(Counter(start)));
        Promise::ok(())
    }

    fn rows(
        &mut self,
        params: calculator::RowsParams,
        mut results: calculator::RowsResults,
    ) -> Promise<(), Error> {
        let count = pry!(params.get()).get_count();
        if count > MOST_ROWS {
            return Promise::err(Error::failed("too many rows".into()));
        }
        let mut rows = results.get().init_rows(count);
        for at in 0..count {
            let mut row = rows.reborrow().get(at);
            row.set_id(u64::from(at));
            row.set_name(format!("row {at}").as_str());
        }
        Promise::ok(())
    }

    // Looks at each name, and counts them.
    fn store(
        &mut self,
        params: calculator::StoreParams,
        mut results: calculator::StoreResults,
    ) -> Promise<(), Error> {
        let mut count = 0;
        for row in pry!(pry!(params.get()).get_rows()).iter() {
            count += u32::from(!pry!(row.get_name()).is_empty());
        }
        results.get().set_count(count);
        Promise::ok(())
    }

    fn fail(
        &mut self,
        _: calculator::FailParams,
        _: calculator::FailResults,
    ) -> Promise<(), Error> {
        Promise::err(Error::failed("this call always fails".into()))
    }
}
