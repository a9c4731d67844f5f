"use strict";
// Checks a journal's hashes from its lines, and gathers its documents. It uses nothing of the page, so tests run it without a browser.
// Values are read and hashed by LedgerVerify, the verifier's script. It isn't proved.
const LedgerJournal = (() => {
  const FIELDS = ["blockAddress", "transactionId", "blockTimestamp", "blockHash", "entriesHash", "previousBlockHash", "entriesHashList",
    "transactionInfo", "revisions"];
  const DEEPEST = 256; // containers of a block
  const bytesOf = (text) => new TextEncoder().encode(text);
  const same = (a, b) => a.length === b.length && a.every((byte, i) => byte === b[i]);

  /** A line whose hashes or whose form don't hold, with the reason in words. */
  class Damaged extends Error {}

  function need(holds, words) {
    if (!holds) throw new Damaged(words);
  }

  /** The fields of a struct as an object, which have to be these in this order. */
  function fieldsOf(value, names, of) {
    const fits = value.kind === "struct" && value.annotations.length === 0 && value.content.length === names.length;
    need(fits && value.content.every(([name], i) => name === names[i]), `the fields aren't those of ${of}`);
    return Object.fromEntries(value.content);
  }

  function contentOf(value, kind, of) {
    need(value.kind === kind && value.annotations.length === 0, `${of} is no ${kind}`);
    return value.content;
  }

  const namesOf = (value) => (value.kind === "struct" ? value.content.map(([name]) => name) : []);

  /** The hash that stands in place of data or of statements. */
  function storedHash(value) {
    const hash = contentOf(value, "blob", "a hash");
    need(hash.length === 32, "a hash hasn't 32 bytes");
    return hash;
  }

  const struct = (fields) => ({ annotations: [], kind: "struct", content: fields });
  const int = (number) => ({ annotations: [], kind: "int", content: BigInt(number) });
  const string = (text) => ({ annotations: [], kind: "string", content: text });

  /** The hash of two hashes, of an empty one and another the other. */
  function dot(a, b) {
    if (!a.length || !b.length) return a.length ? a : b;
    return LedgerVerify.dot(a, b);
  }

  const PAD = LedgerVerify.hashOf({ annotations: [], kind: "symbol", content: "pad" });

  /** The root of the tree over hashes, the empty hash where there are none. */
  function root(leaves) {
    if (!leaves.length) return new Uint8Array(0);
    let level = leaves.slice(), pad = PAD;
    while (level.length > 1) {
      if (level.length % 2) level.push(pad);
      level = Array.from({ length: level.length / 2 }, (_, i) => dot(level[2 * i], level[2 * i + 1]));
      pad = dot(pad, pad);
    }
    return level[0];
  }

  function revisionOf(value, index, sequence, document) {
    const content = namesOf(value).filter((name) => name === "data" || name === "dataHash");
    const fields = fieldsOf(value, ["blockAddress", "hash", ...content, "metadata"], "a revision");
    const metadata = fieldsOf(fields.metadata, ["id", "version", "txTime", "txId"], "metadata");
    const of = fieldsOf(document, ["documentId", "tableId"], "a document");
    const own = LedgerVerify.hashOf(fields.metadata);
    const hash = contentOf(fields.hash, "blob", "a revision's hash");
    const dataHash = fields.dataHash ? storedHash(fields.dataHash) : fields.data ? LedgerVerify.hashOf(fields.data) : [];
    need(same(hash, dot(own, dataHash)), `revision ${index} has another hash`);
    return {
      sequence, index, hash,
      data: fields.data || null,
      deleted: content.length === 0,
      redacted: Boolean(fields.dataHash),
      id: contentOf(metadata.id, "string", "an id"),
      version: Number(contentOf(metadata.version, "int", "a version")),
      time: LedgerVerify.written(metadata.txTime),
      table: contentOf(of.tableId, "string", "an id"),
    };
  }

  function infoOf(value) {
    const hashed = namesOf(value).includes("statementsHash");
    const info = fieldsOf(value, ["place", hashed ? "statementsHash" : "statements", "schema", "documents"], "transactionInfo");
    const place = fieldsOf(info.place, ["session", "transaction"], "a place");
    return {
      place: [place.session, place.transaction].map((number) => Number(contentOf(number, "int", "a place"))),
      hashed,
      statements: hashed ? [] : contentOf(info.statements, "list", "statements").map((said) => fieldsOf(said, ["statement", "parameters", "answer"], "a statement")),
      schema: contentOf(info.schema, "list", "schema").map((change) => contentOf(change, "struct", "a change of the schema")),
      documents: contentOf(info.documents, "list", "documents"),
    };
  }

  /** The hash of what a transaction said and did, in which a hash may stand for its statements. */
  function infoHash(value) {
    return LedgerVerify.structHash(value.content.map(([name, of]) => (name === "statementsHash" ? storedHash(of) : LedgerVerify.fieldHash(name, of))));
  }

  /** The block of a line, whose form and hashes hold, behind the block `last`. Throws Damaged. */
  function blockOf(line, sequence, last) {
    const bytes = bytesOf(line);
    let values;
    try {
      values = LedgerVerify.readValues(bytes, DEEPEST);
    } catch (fault) {
      if (!(fault instanceof LedgerVerify.Unread)) throw fault;
      throw new Damaged(`no Ion text: ${fault.kind} at byte ${fault.at}`);
    }
    need(values.length === 1 && LedgerVerify.written(values[0]) === line, "spelled otherwise than the program spells it");
    const fields = fieldsOf(values[0], FIELDS, "a block");
    const address = fieldsOf(fields.blockAddress, ["strandId", "sequenceNo"], "an address");
    const strand = contentOf(address.strandId, "string", "the strand's id");
    need(contentOf(address.sequenceNo, "int", "the block's number") === BigInt(sequence), "the block has another number");
    need(last === null || strand === last.strand, "the block is of another strand");
    const previous = last === null ? LedgerVerify.hashOf(string(strand)) : last.hash;
    need(same(contentOf(fields.previousBlockHash, "blob", "the previous hash"), previous), "it doesn't name the hash of the block before it");
    const info = infoOf(fields.transactionInfo);
    const found = contentOf(fields.revisions, "list", "revisions");
    need(found.length === info.documents.length, "there isn't a document for each revision");
    const revisions = found.map((revision, index) => revisionOf(revision, index, sequence, info.documents[index]));
    const hash = checkedHash(fields, values[0].content.slice(0, 3), revisions, previous);
    const redacts = info.schema.some(([[kind]]) => kind === "redact");
    return { sequence, strand, hash, ...info, redacts, revisions, tx: fields.transactionId.content, time: LedgerVerify.written(fields.blockTimestamp) };
  }

  /** The block's hash, computed from all that it stands on. */
  function checkedHash(fields, front, revisions, previous) {
    const header = struct([...front, ["revisionCount", int(revisions.length)]]);
    const computed = [infoHash(fields.transactionInfo), root(revisions.map((revision) => revision.hash)), LedgerVerify.hashOf(header)];
    const stated = contentOf(fields.entriesHashList, "list", "the list of hashes").map((hash) => contentOf(hash, "blob", "a hash"));
    const names = ["what the transaction said and did", "the revisions", "the header"];
    need(stated.length === 3, "the list of hashes hasn't three");
    computed.forEach((hash, i) => need(same(hash, stated[i]), `the hash of ${names[i]} is another one`));
    const entries = dot(dot(computed[0], computed[1]), computed[2]);
    need(same(entries, contentOf(fields.entriesHash, "blob", "a hash")), "the hash of the entries is another one");
    const hash = dot(entries, previous);
    need(same(hash, contentOf(fields.blockHash, "blob", "a hash")), "the hash of the block is another one");
    return hash;
  }

  /** Reads lines one by one: `take` gives the next block, and `tables` and `documents` are what the blocks so far left. */
  class Journal {
    constructor() {
      Object.assign(this, { blocks: [], tables: new Map(), documents: new Map(), redactions: new Set() });
    }

    take(line) {
      const last = this.blocks.length ? this.blocks[this.blocks.length - 1] : null;
      const block = blockOf(line, this.blocks.length, last);
      this.blocks.push(block);
      for (const [[kind, name], [, table], of] of block.schema) {
        if (kind === "redact") this.redact(name, of[1].content);
        if (kind === "create") this.tables.set(table.content, { name: name.content, made: block.sequence, dropped: null });
        if (kind === "drop" && this.tables.has(table.content)) this.tables.get(table.content).dropped = block.sequence;
      }
      for (const revision of block.revisions) {
        if (!this.documents.has(revision.id)) this.documents.set(revision.id, []);
        this.documents.get(revision.id).push(revision);
      }
      return block;
    }

    /** The first block with a hash in place of data or of statements that no block redacts, -1 if there is none. */
    unasked() {
      const last = this.blocks.reduce((found, block) => (block.redacts ? block.sequence : found), -1);
      const isUnasked = (revision) => revision.redacted && !this.redactions.has(`${revision.sequence} ${revision.id}`);
      return this.blocks.findIndex((block) => (block.hashed && block.sequence > last) || block.revisions.some(isUnasked));
    }

    /** Hides the data of the revision of a document in the block at an address; its block may show them still. */
    redact(address, id) {
      const sequence = Number(fieldsOf(address, ["strandId", "sequenceNo"], "an address").sequenceNo.content);
      const revisions = this.documents.get(id) || [];
      const at = revisions.findIndex((revision) => revision.sequence === sequence);
      need(at >= 0, "redacts what is no earlier revision");
      revisions[at] = { ...revisions[at], redacted: true };
      this.redactions.add(`${sequence} ${id}`);
    }

    tableName(id) {
      return this.tables.has(id) ? this.tables.get(id).name : id;
    }

    /** The digest up to a block as it is published. */
    digest(tip) {
      const top = LedgerVerify.base64(root(this.blocks.slice(0, tip + 1).map((block) => block.hash)));
      return `{digest:{{${top}}},digestTipAddress:{strandId:"${this.blocks[tip].strand}",sequenceNo:${tip}}}`;
    }

    /** Whether the digests of a text are this journal's: pairs of a tip and whether it agrees. Throws Unread or Damaged. */
    compare(text) {
      return LedgerVerify.readValues(bytesOf(text)).map((value) => {
        const fields = fieldsOf(value, ["digest", "digestTipAddress"], "a digest");
        const tip = Number(fieldsOf(fields.digestTipAddress, ["strandId", "sequenceNo"], "an address").sequenceNo.content);
        return [tip, tip < this.blocks.length && this.digest(tip) === LedgerVerify.written(value)];
      });
    }
  }

  return { Journal, Damaged, root };
})();

if (typeof document !== "undefined") (() => {
  const MOST_ROWS = 300;
  const part = (id) => document.getElementById(id);
  const journal = new LedgerJournal.Journal();
  const state = { mode: "documents", chosen: null };

  /** An element with a class, a text and members. */
  function element(name, className, text, ...members) {
    const made = document.createElement(name);
    if (className) made.className = className;
    if (text !== null) made.textContent = text;
    made.append(...members);
    return made;
  }

  const shown = (value) => LedgerVerify.shown(value);
  const plain = (text) => shown({ annotations: [], kind: "string", content: text }).slice(1, -1).replace(/\\"/g, '"');
  const dataOf = (revision) => (revision.redacted ? "redacted" : revision.deleted ? "deleted" : shown(revision.data));
  /** A number and a word, in the plural unless it is one. */
  const counted = (number, word) => `${number} ${word}${number === 1 ? "" : "s"}`;

  /** A document as one of its revisions leaves it, and as it was before where that deletes it. */
  function titleOf(revisions, now) {
    return now.deleted ? `deleted, and was ${dataOf(revisions[now.version - 1])}` : dataOf(now);
  }

  // ---- what is listed

  /** Whether a time is within the day, month or other time that is written, or before it; UTC times are in the order of their texts. */
  const within = (time, asOf) => !asOf || time.slice(0, asOf.length) <= asOf;

  function documentRows(wanted, asOf) {
    const rows = [];
    for (const [id, revisions] of journal.documents) {
      const now = revisions.filter((revision) => within(revision.time, asOf)).pop();
      if (!now) continue;
      const table = journal.tableName(revisions[0].table);
      const text = [id, table, ...revisions.map(dataOf)].join(" ").toLowerCase();
      if (text.includes(wanted)) rows.push({ key: id, title: titleOf(revisions, now), hint: `${plain(table)} · ${id} · version ${now.version} of ${now.time}` });
    }
    return rows;
  }

  const REDACTED = "statements redacted";

  function blockRows(wanted, asOf) {
    const rows = [];
    for (const block of journal.blocks) {
      const said = block.hashed ? [REDACTED] : block.statements.map((said) => said.statement.content);
      const text = [block.tx, block.time, `block ${block.sequence}`, ...said, ...block.statements.map((s) => shown(s.parameters))].join(" ").toLowerCase();
      if (!within(block.time, asOf) || !text.includes(wanted)) continue;
      rows.push({ key: block.sequence, title: said.map(plain).join("\n"), hint: `block ${block.sequence} · ${block.time} · ${counted(block.revisions.length, "revision")}` });
    }
    return rows;
  }

  function list() {
    const wanted = part("search").value.trim().toLowerCase(), asOf = part("as-of").value.trim();
    const rows = (state.mode === "documents" ? documentRows : blockRows)(wanted, asOf);
    const items = rows.slice(0, MOST_ROWS).map((row) => {
      const button = element("button", "row", null, element("span", "value", row.title), element("span", "hint", row.hint));
      button.classList.toggle("chosen", row.key === state.chosen);
      button.addEventListener("click", () => choose(row.key));
      return element("li", "", null, button);
    });
    const more = rows.length > MOST_ROWS ? `, of which the first ${MOST_ROWS} are shown` : "";
    part("list").replaceChildren(element("h2", "", counted(rows.length, state.mode.slice(0, -1)) + more), element("ul", "", null, ...items));
  }

  // ---- what is chosen

  function documentDetail(id) {
    const revisions = journal.documents.get(id), asOf = part("as-of").value.trim();
    const items = revisions.map((revision) => {
      const item = element("li", revision.deleted ? "deleted" : "", null,
        element("strong", "", `${revision.time} · version ${revision.version}`), element("div", "value", dataOf(revision)));
      item.classList.toggle("later", !within(revision.time, asOf));
      const link = element("button", "", `block ${revision.sequence}`);
      link.addEventListener("click", () => change("blocks", revision.sequence));
      item.append(element("p", "hint", `for a proof: prove ${revision.sequence} ${revision.index} · `, link));
      return item;
    });
    return [element("h2", "", `The time line of ${id}`), element("p", "hint", `a document of ${plain(journal.tableName(revisions[0].table))}`),
      element("ul", "time", null, ...items)];
  }

  function statementDetail(said) {
    const parameters = said.parameters.content, answer = said.answer.content;
    const given = parameters.length ? [element("p", "value hint", "with " + parameters.map(shown).join(", "))] : [];
    const rows = answer.map((row) => element("div", "value", shown(row)));
    return element("div", "", null, element("p", "value", plain(said.statement.content)), ...given,
      element("details", "", null, element("summary", "hint", counted(answer.length, "row")), ...rows));
  }

  function blockDetail(sequence) {
    const block = journal.blocks[sequence];
    const links = block.revisions.map((revision) => {
      const link = element("button", "row", null, element("span", "value", dataOf(revision)), element("span", "hint", `${revision.id} version ${revision.version}`));
      link.addEventListener("click", () => change("documents", revision.id));
      return element("li", "", null, link);
    });
    return [element("h2", "", `Block ${sequence}`), element("p", "hint", `${block.time} · transaction ${block.tx} · session ${block.place[0]}, transaction ${block.place[1]} of its script`),
      element("p", "hint", `hash ${LedgerVerify.hex(block.hash)}`), ...(block.hashed ? [element("p", "hint", REDACTED)] : block.statements.map(statementDetail)),
      element("h2", "", counted(links.length, "revision")), element("ul", "", null, ...links)];
  }

  function choose(key) {
    state.chosen = key;
    part("detail").replaceChildren(...(state.mode === "documents" ? documentDetail : blockDetail)(key));
    list();
  }

  /** Shows documents or blocks, with one of them chosen or none. */
  function change(mode, chosen) {
    Object.assign(state, { mode, chosen });
    part("show-documents").classList.toggle("chosen", mode === "documents");
    part("show-blocks").classList.toggle("chosen", mode === "blocks");
    if (chosen === null) {
      part("detail").replaceChildren();
      list();
    } else choose(chosen);
  }

  // ---- the check, a part at a time, so that the page stays awake

  function told(className, text) {
    part("banner").className = className;
    part("banner").textContent = text;
  }

  function finish(lines, damage) {
    const unasked = damage === null ? journal.unasked() : -1;
    const count = journal.blocks.length, revisions = journal.blocks.reduce((sum, block) => sum + block.revisions.length, 0);
    const before = `What stands before it holds and is shown: ${counted(count, "block")}.`;
    if (damage !== null) told("bad", `DAMAGED: block ${count}: ${damage}. ${before}`);
    else if (lines.rest) told("bad", `The journal is damaged from block ${count} on (${lines.rest}). ${before}`);
    else if (unasked >= 0) told("bad", `DAMAGED: block ${unasked}: a hash in place of data or statements that no block redacts. All hashes hold.`);
    else told("good", `All hashes hold: ${counted(count, "block")} and ${counted(revisions, "revision")}, computed anew in this browser.`);
    if (count) part("tip").textContent = journal.digest(count - 1);
    change("documents", null);
  }

  function check(lines) {
    const until = Date.now() + 50;
    let damage = null;
    while (journal.blocks.length < lines.lines.length && damage === null && Date.now() < until) {
      try {
        journal.take(lines.lines[journal.blocks.length]);
      } catch (fault) {
        if (!(fault instanceof LedgerJournal.Damaged)) throw fault;
        damage = fault.message;
      }
    }
    if (damage !== null || journal.blocks.length === lines.lines.length) {
      finish(lines, damage);
      return;
    }
    told("", `Checking: ${journal.blocks.length} of ${counted(lines.lines.length, "block")}`);
    setTimeout(() => check(lines), 0);
  }

  function compare() {
    let found;
    try {
      found = journal.compare(part("digests").value).map(([tip, agrees]) => [agrees ? "good" : "bad", `tip ${tip}: ${agrees ? "agrees" : "DIFFERS"}`]);
    } catch (fault) {
      found = [["bad", `no digest: ${fault.message}`]];
    }
    part("compared").replaceChildren(...found.map(([className, text]) => element("li", className, text)));
  }

  const lines = JSON.parse(part("journal").textContent);
  part("title").textContent = `The journal ${plain(lines.name)}`;
  part("search").addEventListener("input", list);
  part("as-of").addEventListener("input", () => (state.chosen === null ? list() : choose(state.chosen)));
  part("show-documents").addEventListener("click", () => change("documents", null));
  part("show-blocks").addEventListener("click", () => change("blocks", null));
  part("compare").addEventListener("click", compare);
  check(lines);
})();
