function y = f(a, b)
y = a*b + a;
end
