// Questions to the server. An answer is shown only if nothing was typed since its question was sent. A question that comes while another one of
// its kind is under way waits for it a moment, and then replaces it.

// How many milliseconds a question waits for the one before. PAGE is this page's name, by which the server knows whose question it replaces.
const PATIENCE = 150;
const PAGE = crypto.randomUUID();
let mostOctets = Infinity;

/** Sets how many octets the server takes in one question. Before that any number is sent. */
export function limitOctets(octets) {
  mostOctets = octets;
}

/** Returns a function that asks: it sends what `collect` returns as a question of a kind, a job of the server, and calls `show` with the answer,
  * unless a text was changed meanwhile. `countChanges` returns how often the texts were changed so far. */
export function asker(kind, collect, show, countChanges) {
  // (the controller of the question that was sent last, until its answer comes)
  let underWay = null;
  let isNextWaiting = false;

  // (sends the question, and shows its answer unless a text was changed meanwhile)
  async function send() {
    const count = countChanges();
    const controller = new AbortController();
    isNextWaiting = false;
    underWay = controller;
    const answer = await answerTo(kind, JSON.stringify({ ...collect(), page: PAGE }), controller.signal);
    if (underWay === controller) {
      underWay = null;
    }
    if (count === countChanges() && answer) {
      show(answer);
    }
    if (isNextWaiting && !underWay) {
      send();
    }
  }

  // (asks at once; or, if a question is under way, after its answer, or after PATIENCE, and then that one is aborted)
  return () => {
    if (!underWay) {
      send();
    } else if (!isNextWaiting) {
      isNextWaiting = true;
      const before = underWay;
      setTimeout(() => {
        if (isNextWaiting && underWay === before) {
          before.abort();
          send();
        }
      }, PATIENCE);
    }
  };
}

/** The answer of the server to `body`, a question in JSON, or null if `signal` stopped the question. `kind` is the job that is asked for. If the
  * server gives no answer, it is one whose `notice` says why. */
async function answerTo(kind, body, signal) {
  const octets = new TextEncoder().encode(body);
  if (octets.length > mostOctets) {
    const [sent, most] = [octets.length, mostOctets].map((count) => count.toLocaleString("en"));
    return { notice: `The texts are too long for this page: ${sent} octets as they are sent, and it takes ${most}.` };
  }
  try {
    const reply = await fetch(kind, { method: "POST", headers: { "Content-Type": "application/json" }, body: octets, signal });
    return reply.ok ? await reply.json() : { notice: `The server refused the question with status ${reply.status}. `
      + "If it was started again, open the address that it printed." };
  } catch (why) {
    return why.name === "AbortError" ? null : { notice: "The server does not answer. Start it again, and open the address that it prints." };
  }
}
