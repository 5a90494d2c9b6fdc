% Crossfades two samples. The result is rounded to the nearest number of the first one's type, and saturated there.
function y = crossfade(a, b, t)
d = b - a;
y = cast(a + t*d, 'like', a);
end
