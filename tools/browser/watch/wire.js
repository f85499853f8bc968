// The recorder's wire, in a try: the events and replies that it is given are noted, in their order.
import { Wire as True } from "./truewire.js";

export * from "./truewire.js";

const { told } = window.ripleyTry;

export class Wire extends True {
  event(item) {
    if (!this.isOver) { told.push({ kind: item.isKept ? "again" : "event", item }); }
    super.event(item);
  }

  reply(number) {
    told.push({ kind: "reply", item: ["reply", number] });
    return super.reply(number);
  }
}
