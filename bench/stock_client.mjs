// A stock client of WebSockets (Node's own, by undici) and a stock client of HTTP (Node's fetch) over a service that runs:
//     node --experimental-websocket bench/stock_client.mjs [CONNECTION_PORT [MESSAGES]]
// It says hello, registers a channel, posts messages of every length from 0 to 4,096 bytes in steps, and acknowledges each. It ends with
// status 0 where each notification came whole and in order, and the connection was closed in order.
const port = Number(process.argv[2] ?? 8080);
const messages = Math.min(Number(process.argv[3] ?? 100), 10_000);
const channelID = "5a5a5a5a-0000-4000-8000-000000000001";

const told = [];
let wake = () => {};
const socket = new WebSocket(`ws://localhost:${port}/`);
socket.addEventListener("message", (event) => {
    told.push(JSON.parse(event.data));
    wake();
});

function fail(why) {
    console.error(why);
    process.exit(1);
}

setTimeout(() => fail("nothing came for too long"), 60_000).unref();

async function hear() {
    while (told.length === 0) {
        await new Promise((resolve) => { wake = resolve; });
    }
    return told.shift();
}

function say(message) {
    socket.send(JSON.stringify(message));
}

await new Promise((resolve) => socket.addEventListener("open", resolve));
say({ messageType: "hello", use_webpush: true, uaid: "" });
const hello = await hear();
if (hello.status !== 200) fail(`hello: ${JSON.stringify(hello)}`);
say({ messageType: "register", channelID });
const { pushEndpoint } = await hear();

for (let number = 0; number < messages; number++) {
    const length = Math.floor((number * 4096) / Math.max(messages - 1, 1));
    const body = new Uint8Array(length).map((_, place) => (place + number) % 256);
    const answer = await fetch(pushEndpoint, { method: "POST", headers: { TTL: "60", "Content-Encoding": "aes128gcm" }, body });
    await answer.arrayBuffer();
    if (answer.status !== 201) fail(`message ${number} of ${length} bytes was answered ${answer.status}`);
    const notification = await hear();
    if (!Buffer.from(notification.data ?? "", "base64url").equals(Buffer.from(body))) fail(`message ${number} came changed`);
    say({ messageType: "ack", updates: [{ channelID, version: notification.version }] });
}

const ended = new Promise((resolve) => socket.addEventListener("close", resolve));
socket.close(1000);
const { code, wasClean } = await ended;
if (code !== 1000 || !wasClean) fail(`the connection ended with ${code}`);
console.log(`${messages} messages came whole, and the connection was closed in order`);
process.exit(0);
