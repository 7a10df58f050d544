//! Makes calls to a server in the same thread, over a pipe in memory, so that their cost can be counted.
//!
//!     cost (with | without) (small | list) CALLS
//!
//! The server vets what it receives, or doesn't. A small call has two numbers. A list has 20,000 structs with a text, and is
//! sent with each call.

use capnp_rpc::rpc_twoparty_capnp::Side;
use capnp_rpc::twoparty::VatNetwork;
use capnp_rpc::RpcSystem;
use capvet::Limits;
use capvet_capnp_rpc::VettingRead;
use futures::io::{AsyncRead, AsyncReadExt, AsyncWrite};
use rpc::calculator_capnp::calculator;
use rpc::Calculator;
use std::future::pending;
use tokio::runtime::Builder;
use tokio::task::{spawn_local, LocalSet};
use tokio_util::compat::TokioAsyncReadCompatExt;

const PIPE: usize = 64 << 10;
const ROWS: u32 = 20_000;

fn serve<R>(reader: R, writer: impl AsyncWrite + Unpin + 'static)
where
    R: AsyncRead + Unpin + 'static,
{
    let service: calculator::Client = capnp_rpc::new_client(Calculator);
    let options = capvet_capnp::options_for(Limits::DEFAULT);
    let network = VatNetwork::new(reader, writer, Side::Server, options);
    spawn_local(RpcSystem::new(Box::new(network), Some(service.client)));
}

fn connect(is_vetting: bool) -> calculator::Client {
    let (one, other) = tokio::io::duplex(PIPE);
    let (reader, writer) = one.compat().split();
    if is_vetting {
        serve(
            VettingRead::new(reader, Limits::DEFAULT, |_| pending()),
            writer,
        );
    } else {
        serve(reader, writer);
    }
    let (reader, writer) = other.compat().split();
    let options = capvet_capnp::options_for(Limits::DEFAULT);
    let network = VatNetwork::new(reader, writer, Side::Client, options);
    let mut system = RpcSystem::new(Box::new(network), None);
    let client = system.bootstrap(Side::Server);
    spawn_local(system);
    client
}

async fn small(calculator: &calculator::Client, calls: u32) -> capnp::Result<f64> {
    let mut sum = 0.0;
    for at in 0..calls {
        let mut add = calculator.add_request();
        add.get().set_a(f64::from(at));
        add.get().set_b(0.5);
        sum += add.send().promise.await?.get()?.get_sum();
    }
    Ok(sum)
}

async fn list(calculator: &calculator::Client, calls: u32) -> capnp::Result<f64> {
    let mut request = calculator.rows_request();
    request.get().set_count(ROWS);
    let received = request.send().promise.await?;
    let rows = received.get()?.get_rows()?;
    let mut sum = 0.0;
    for _ in 0..calls {
        let mut store = calculator.store_request();
        store.get().set_rows(rows)?;
        sum += f64::from(store.send().promise.await?.get()?.get_count());
    }
    Ok(sum)
}

fn main() {
    let words: Vec<_> = std::env::args().skip(1).collect();
    let (server, kind) = (&words[0], &words[1]);
    let calls = words[2].parse().expect("a number");
    let runtime = Builder::new_current_thread().build().expect("a runtime");
    let sum = LocalSet::new().block_on(&runtime, async {
        let calculator = connect(server == "with");
        match &kind[..] {
            "small" => small(&calculator, calls).await,
            _ => list(&calculator, calls).await,
        }
    });
    println!("{}", sum.expect("the calls come back"));
}
