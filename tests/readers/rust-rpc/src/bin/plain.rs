//! A server of the same calls without vetting, to see what `capnp-rpc` does by itself. It prints its port.

use capnp_rpc::rpc_twoparty_capnp::Side;
use capnp_rpc::twoparty::VatNetwork;
use capnp_rpc::RpcSystem;
use futures::io::AsyncReadExt;
use rpc::calculator_capnp::calculator;
use rpc::Calculator;
use std::io;
use tokio::net::TcpListener;
use tokio::task::{spawn_local, LocalSet};
use tokio_util::compat::TokioAsyncReadCompatExt;

async fn serve() -> io::Result<()> {
    let listener = TcpListener::bind("127.0.0.1:0").await?;
    println!("{}", listener.local_addr()?.port());
    loop {
        let (reader, writer) = listener.accept().await?.0.compat().split();
        let service: calculator::Client = capnp_rpc::new_client(Calculator);
        let network = VatNetwork::new(reader, writer, Side::Server, Default::default());
        spawn_local(RpcSystem::new(Box::new(network), Some(service.client)));
    }
}

#[tokio::main(flavor = "current_thread")]
async fn main() -> io::Result<()> {
    LocalSet::new().run_until(serve()).await
}
