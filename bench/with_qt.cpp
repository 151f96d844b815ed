// Qt's raster painter, on an image over the same pixels.
#include "bench.h"

#include <QBrush>
#include <QImage>
#include <QPainter>
#include <cstdlib>
#include <memory>

namespace {

const picture *shown;
std::unique_ptr<QImage> image;
std::unique_ptr<QPainter> hand;

void begin(const picture *p, uint8_t *pixels) {
    int width = int(p->width), height = int(p->height);
    shown = p;
    image = std::make_unique<QImage>(pixels, width, height, 4 * width, QImage::Format_ARGB32_Premultiplied);
    hand = std::make_unique<QPainter>();
    if (!hand->begin(image.get())) {
        std::fputs("Qt: no painter\n", stderr);
        std::exit(1);
    }
    hand->setCompositionMode(QPainter::CompositionMode_Source);
}

void paint(QGradient &&gradient) {
    QGradientStops stops;
    for (int k = 0; k < shown->count; k++) {
        color c = shown->stops[k];
        stops.append({k / (shown->count - 1.0), QColor(c.red, c.green, c.blue, c.alpha)});
    }
    gradient.setStops(stops);
    if (shown->kind == REPEATED)
        gradient.setSpread(QGradient::RepeatSpread);
    hand->fillRect(0, 0, int(shown->width), int(shown->height), QBrush(gradient));
}

// To a line Qt has 1023 steps of its table, and it repeats after 1024: the line is made shorter by so much.
void draw() {
    const picture &p = *shown;
    double part = p.kind == REPEATED ? 1023.0 / 1024 : 1;
    if (p.circle)
        paint(QRadialGradient(p.x0, p.y0, part * p.radius));
    else
        paint(QLinearGradient(p.x0, p.y0, p.x0 + part * (p.x1 - p.x0), p.y0 + part * (p.y1 - p.y0)));
}

void end() {
    hand.reset();
    image.reset();
}

const char *version() {
    return qVersion();
}

} // namespace

extern "C" const painter qt_painter = {"Qt", true, begin, draw, end, version};
