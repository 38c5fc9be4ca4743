// Where answers come from: the server of tools/view or, in a saved page, the data in it.

import { hearServer, NoAnswer } from "./asker.js";
import { byId } from "./elements.js";

const data = byId("saved");
// The data of a saved page; null if a server answers.
export const SAVED = data && JSON.parse(data.textContent);
// The scenes of a saved page, by recording, once they are unpacked.
const scenes = [];

// The server's answer to a question, which is a POST request if it has a body.
export async function ask(path, body) {
  const options = body && {
    method: "POST",
    headers: { "Content-Type": "application/json" },
    body: JSON.stringify(body),
  };
  const answer = await fetch(path, options).catch(throwNoAnswer);
  hearServer();
  if (answer.ok) return path.startsWith("waits.bin") ? answer.arrayBuffer().catch(throwNoAnswer) : contentOf(answer);
  const { error } = await contentOf(answer).catch(() => ({}));
  throw new Error(error || `${answer.status} ${answer.statusText}`);
}

// An answer that breaks off is none.
const contentOf = async (answer) => JSON.parse(await answer.text().catch(throwNoAnswer));

function throwNoAnswer() {
  throw new NoAnswer();
}

export function decodeBase64(text) {
  return Uint8Array.fromBase64?.(text) ?? Uint8Array.from(atob(text), (sign) => sign.charCodeAt(0));
}

// One byte for each bit of a mask in base64.
export function decodeMask(text, count) {
  const bytes = decodeBase64(text);
  return new Uint8Array(count).map((_, at) => (bytes[at >> 3] >> (at & 7)) & 1);
}

function unzip(text) {
  const stream = new Blob([decodeBase64(text)]).stream().pipeThrough(new DecompressionStream("gzip"));
  return new Response(stream).arrayBuffer();
}

// The columns of a recording's waits.
export const columnsOf = (recording) =>
  SAVED ? unzip(SAVED.waits[recording]) : ask(`waits.bin?recording=${recording}`);

// What ran during a wait and around it; or between the stamps of a window.
export async function sceneOf({ recording, cpu, line, strikes }, window) {
  if (!SAVED) return ask("wait", { recording, cpu, line, ...window, strikes });
  scenes[recording] ??= JSON.parse(new TextDecoder().decode(await unzip(SAVED.scenes[recording])));
  const refused = `This file has what ran during its longest waits only. For any other wait, run ${SAVED.about.command}`;
  return scenes[recording][`${cpu}:${line}`] || { refused };
}

// What all CPUs did from a stamp to another one, in so many parts. A saved page has all of a recording in fewer parts.
export async function overviewOf({ recording, from, until, width }) {
  if (SAVED) return JSON.parse(new TextDecoder().decode(await unzip(SAVED.overviews[recording])));
  return ask(`overview?recording=${recording}&from=${from}&until=${until}&width=${width}`);
}
