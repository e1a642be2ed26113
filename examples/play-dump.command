play --dump
