// What a page or a worker does: it answers the requests of its server. `name` goes before the numbers of its answers.
import { answerAll } from "/answers.mjs";

const get = async (index) => {
  const response = await fetch(`/request/${index}`);
  if (!response.ok) return null;
  return { ...(await response.json()), stream: new Uint8Array(await (await fetch(`/stream/${index}`)).arrayBuffer()) };
};

export async function answerServer(name, capvet) {
  const count = await answerAll(capvet, get, (index, body) => fetch(`/${name}/${index}`, { method: "POST", body }));
  await fetch(`/${name}/end`, { method: "POST", body: String(count) });
}
