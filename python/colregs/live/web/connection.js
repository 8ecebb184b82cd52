// The connection to the server. If it is lost it is made again, and the server sends what was missed, or a snapshot.

const FIRST_WAIT = 500, LONGEST_WAIT = 8000, SILENCE = 15000;

export class Connection {
  // `changed` is called after each message, `stated` when the connection comes or goes.
  constructor(store, changed, stated) {
    Object.assign(this, { store, changed, stated, wait: FIRST_WAIT, socket: null, heard: performance.now() });
    setInterval(() => this.check(), 1000);
    addEventListener("online", () => this.open());
    this.open();
  }

  open() {
    if (this.socket && this.socket.readyState <= WebSocket.OPEN) return;
    const asked = this.store.number === null ? "" : `?epoch=${encodeURIComponent(this.store.epoch)}&since=${this.store.number}`;
    const socket = this.socket = new WebSocket(`${location.protocol === "https:" ? "wss" : "ws"}://${location.host}/ws${asked}`);
    this.heard = performance.now();
    socket.onmessage = (event) => { if (socket === this.socket) this.take(JSON.parse(event.data)); };
    socket.onopen = () => { if (socket === this.socket) this.stated("connected"); };
    socket.onclose = () => { if (socket === this.socket) this.again(); };
  }

  take(message) {
    this.heard = performance.now();
    this.wait = FIRST_WAIT;
    if (message.kind === "snapshot") this.store.load(message);
    else if (!message.changes.every((change) => this.store.apply(change))) {
      this.store.number = null;
      this.close();
      return;
    }
    this.changed(message);
  }

  // The server sends its health each second: a long silence is a connection that is dead.
  check() {
    if (this.socket && this.socket.readyState === WebSocket.OPEN && performance.now() - this.heard > SILENCE) this.close();
  }

  close() {
    const { socket } = this;
    socket.onclose = null;
    socket.close();
    this.again();
  }

  again() {
    this.socket = null;
    this.stated("lost");
    setTimeout(() => this.open(), this.wait);
    this.wait = Math.min(LONGEST_WAIT, this.wait * 1.6);
  }
}
