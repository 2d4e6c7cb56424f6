// Drops or pastes a file on the page: by which event, its name and its bytes in base64.
const [kind, name, text] = arguments, transfer = new DataTransfer();
transfer.items.add(new File([Uint8Array.from(atob(text), (it) => it.charCodeAt(0))], name));
const how = { bubbles: true, cancelable: true };
const event = kind === "drop" ? new DragEvent(kind, { ...how, dataTransfer: transfer })
  : new ClipboardEvent(kind, { ...how, clipboardData: transfer });
document.body.dispatchEvent(event);
return event.defaultPrevented;
