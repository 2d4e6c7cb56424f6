"""The modules of imgref-hide, by subject.

command     the words that a user types, and the status
one         one video from the first check to the last line
paths       what may be read and written
many        a folder of videos, and its table
probing     what ffprobe says of a video, and whether it is cut off
encoding    how ffmpeg decodes the video, and how it encodes the output
finding     finds faces and people by all cores, in a process of its own
faces       the detectors of faces
lists       the list of boxes: other forms, margins, and frames without a box
sheets      the pictures of the sheet, in a process of their own
running     pipes of commands, signals and progress
places      where the programs are, and their versions
record      the record of --log
"""
