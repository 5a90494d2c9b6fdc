% Mixes a voice into two channels: gain and pan are fractions, the sums keep every bit.
function [left, right] = stereo_mix(voice, music, gain, pan)
wet = voice*gain;
left = wet*pan + music;
right = wet + music*gain;
end
