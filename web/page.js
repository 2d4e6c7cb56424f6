// The page that covers parts of a picture.

import { startPicture } from "./controls.js";
import { start } from "./start.js";

start("picture", startPicture);
