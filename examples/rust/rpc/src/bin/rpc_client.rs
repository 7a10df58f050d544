//! A client of rpc_server. It vets what its server sends.
//!
//!     cargo run --bin rpc_client -- 127.0.0.1:PORT
//!
//! The status is 0 if the server was reached and the calls came back.

use capnp_rpc::rpc_twoparty_capnp::Side;
use capnp_rpc::twoparty::VatNetwork;
use capnp_rpc::RpcSystem;
use capvet::Limits;
use capvet_capnp_rpc::VettingRead;
use futures::io::AsyncReadExt;
use rpc::calculator_capnp::calculator;
use std::error::Error;
use tokio::net::TcpStream;
use tokio::task::LocalSet;
use tokio_util::compat::TokioAsyncReadCompatExt;

#[tokio::main(flavor = "current_thread")]
async fn main() -> Result<(), Box<dyn Error>> {
    let address = std::env::args().nth(1).ok_or("usage: rpc_client ADDRESS")?;
    LocalSet::new().run_until(connected(&address)).await
}

async fn connected(address: &str) -> Result<(), Box<dyn Error>> {
    let stream = TcpStream::connect(address).await?;
    stream.set_nodelay(true)?;
    let (reader, writer) = stream.compat().split();
    // (what the server begins to send has 20 seconds)
    let vetting = VettingRead::new(reader, Limits::DEFAULT, tokio::time::sleep);
    let options = vetting.options();
    let network = VatNetwork::new(vetting, writer, Side::Client, options);
    let mut system = RpcSystem::new(Box::new(network), None);
    let calculator: calculator::Client = system.bootstrap(Side::Server);
    tokio::task::spawn_local(system);
    Ok(called(&calculator).await?)
}

async fn called(calculator: &calculator::Client) -> capnp::Result<()> {
    let mut add = calculator.add_request();
    add.get().set_a(40.5);
    add.get().set_b(1.5);
    let sum = add.send().promise.await?.get()?.get_sum();
    println!("40.5 + 1.5 = {sum}");

    // (the counter is called before the call that returns it has ended)
    let mut start = calculator.counter_request();
    start.get().set_start(7);
    let counter = start.send().pipeline.get_counter();
    let (first, second) = (counter.next_request().send(), counter.next_request().send());
    let first = first.promise.await?.get()?.get_number();
    let second = second.promise.await?.get()?.get_number();
    println!("counted {first} and {second}");

    let mut rows = calculator.rows_request();
    rows.get().set_count(10_000);
    let received = rows.send().promise.await?;
    let rows = received.get()?.get_rows()?;
    let mut store = calculator.store_request();
    store.get().set_rows(rows)?;
    let stored = store.send().promise.await?.get()?.get_count();
    println!("received {} rows, stored {stored}", rows.len());

    if let Err(error) = calculator.fail_request().send().promise.await {
        println!("{error}");
    }
    Ok(())
}
