"""Finds faces in a frame: by the cascades that OpenCV ships, or by a model."""
import sys

import detecting

# The least score of OpenCV's FaceDetectorYN.
MODEL_SCORE = 0.6
# A picture with fewer rows or columns isn't looked at in half its size too.
LEAST_HALVED = 96
# The least size that a cascade is made for.
LEAST = 20


def by_cascades(cv2, smallest):
    """Finds faces from the front and from both sides. The score of one is how many of the eight searches found it.

    A cascade misses what has odd contrast or fine noise. So it looks at the brightness as it is, with the contrast of each part made
    alike, and at half the size.
    """
    import detect_faces

    front, side = [detect_faces.cascade(cv2, it) for it in detect_faces.FRONT], detect_faces.cascade(cv2, detect_faces.SIDE)
    alike = cv2.createCLAHE(2.0, (4, 4))

    def search(detector, picture):
        least = max(LEAST, smallest)
        return [[int(it) for it in box] for box in detector.detectMultiScale(picture, scaleFactor=1.1, minNeighbors=3, minSize=(least, least))]

    def find(planes):
        picture, (high, wide) = planes[0], planes[0].shape
        boxes = [box for it in (*front, side) for box in search(it, picture)]
        # The profile's cascade knows one side: the other one is found in the mirrored frame.
        boxes += [[wide - left - width, top, width, height] for left, top, width, height in search(side, cv2.flip(picture, 1))]
        boxes += [box for it in front for box in search(it, alike.apply(picture))]
        if min(high, wide) >= LEAST_HALVED:
            half = cv2.resize(picture, (wide // 2, high // 2), interpolation=cv2.INTER_AREA)
            boxes += [[2 * value for value in box] for it in front for box in search(it, half)]
        return detect_faces.joined(boxes)

    return find


def by_model(cv2, numpy, file, least):
    """Finds faces by OpenCV's FaceDetectorYN and a model, in colours."""
    if not hasattr(cv2, "FaceDetectorYN"):
        sys.exit(f"OpenCV {cv2.__version__} has no FaceDetectorYN: --model needs 4.5.4 or later")
    try:
        detector = cv2.FaceDetectorYN.create(file, "", (320, 320), MODEL_SCORE if least is None else least)
    except cv2.error as why:
        sys.exit(f"{file} is no model that OpenCV reads: {str(why).strip().splitlines()[-1]}")

    def find(planes):
        brightness, *chroma = planes
        high, wide = brightness.shape
        cells = numpy.concatenate([it.reshape(-1) for it in (brightness, *chroma)]).reshape(high * 3 // 2, wide)
        detector.setInputSize((wide, high))
        found = detector.detect(cv2.cvtColor(cells, cv2.COLOR_YUV2BGR_I420))[1]
        return [([float(it) for it in face[:4]], float(face[-1])) for face in (found if found is not None else [])]

    return find
